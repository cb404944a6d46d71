//! The address outputs, each card by itself held to the printed table: in each format every X and every Y, beside it the
//! other at 0, at 4,095 or at random. And in any good state, whatever runs and whatever is left over in it.

use against::card::Card;
use against::convert::{flattened, format_number};
use against::draw::left_over::{planted, KINDS};
use against::draw::states::FORMATS;
use against::flat::Flat;
use against::library::Library;
use against::lines::printed;
use against::model::Model;
use against::random::Random;
use second::Format;

/// Of X and of Y.
const LAST: u16 = 4_095;
/// With a left-over of each kind.
const STATES: usize = 100;

fn holds(card: &impl Card, format: Format, state: Flat) {
    let wanted = printed(format).at(state.x, state.y);
    assert_eq!(card.address(state), wanted, "{format:?}, {state:?}");
}

/// Each line goes by X alone or by Y alone, so all values of the one beside a few of the other show it.
fn every_coordinate(card: &impl Card) {
    let mut random = Random::new(83);
    for format in FORMATS {
        let fresh = card.fresh(format_number(format)).state;
        for value in 0..=LAST {
            holds(card, format, Flat { x: value, y: beside(&mut random), ..fresh });
            holds(card, format, Flat { x: beside(&mut random), y: value, ..fresh });
        }
    }
}

fn beside(random: &mut Random) -> u16 {
    let any = random.among(0, LAST);
    random.pick(&[0, LAST, any])
}

/// Idle, drawing and clearing, without left-overs and with them.
fn every_state(card: &impl Card) {
    let mut random = Random::new(84);
    for kind in 0..KINDS.len() {
        for _ in 0..STATES {
            let (state, left_over) = planted(&mut random, kind);
            holds(card, state.format, flattened(&state));
            holds(card, state.format, left_over);
        }
    }
}

#[test]
fn by_the_library() {
    every_coordinate(&Library::reach());
}

#[test]
fn by_the_model() {
    every_coordinate(&Model);
}

#[test]
fn in_any_state_by_the_library() {
    every_state(&Library::reach());
}

#[test]
fn in_any_state_by_the_model() {
    every_state(&Model);
}
