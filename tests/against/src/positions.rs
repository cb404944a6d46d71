//! The address outputs at every position: X and Y each from 0 to 4,095, on a fresh card of each format.

use crate::call::Call;
use crate::card::Card;
use crate::case::{is_due, Case, Promise};
use crate::convert::flattened;
use crate::draw::states::FORMATS;
use crate::flat::Flat;
use crate::scene::Memories;
use second::fresh;

/// Of X and of Y.
const LAST: u16 = 4_095;

/// How many positions were compared; or the first call on which the cards differ, or refuse a good state.
pub fn compare(library: &impl Card, model: &impl Card) -> Result<u64, Box<Case>> {
    let mut compared = 0;
    for format in FORMATS {
        let fresh = flattened(&fresh(format));
        for (x, y) in positions() {
            let state = Flat { x, y, ..fresh };
            if !agree(library, model, state) {
                return Err(Box::new(at(state)));
            }
            compared += 1;
        }
    }
    Ok(compared)
}

fn positions() -> impl Iterator<Item = (u16, u16)> {
    (0..=LAST).flat_map(|x| (0..=LAST).map(move |y| (x, y)))
}

fn agree(library: &impl Card, model: &impl Card, state: Flat) -> bool {
    let outputs = model.address(state);
    library.address(state) == outputs && is_due(outputs.number, Some(Promise::Good))
}

fn at(state: Flat) -> Case {
    Case { state, call: Call::Address, lent: Memories::default(), promise: Some(Promise::Good) }
}
