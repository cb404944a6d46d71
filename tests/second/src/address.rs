//! The address outputs for the present X and Y, with ALL high.

use crate::answer::AddressAnswer;
use crate::format::Format;
use crate::refusal::{self, ACCEPTED};
use crate::state::State;

/// Bits of X and Y above the window do not appear (reading 83).
pub fn address(state: &State) -> AddressAnswer {
    let number = refusal::of_address(state);
    if number != ACCEPTED {
        return AddressAnswer { number, ck_low: 0, ck_high: 0, msl: 0 };
    }
    let x = |place: u8| state.x >> place & 1 == 1;
    let y = |place: u8| state.y >> place & 1 == 1;
    let (ck_low, ck_high, msl) = match state.format {
        Format::Ef9366 => (
            lines(&[x(8), x(7), x(6), x(5), x(4), x(3), y(0)]),
            lines(&[y(7), y(6), y(5), y(4), y(3), y(2), y(1)]),
            lines(&[x(0), x(1), x(2), true]),
        ),
        Format::Ef9365High => (
            lines(&[x(8), x(7), x(6), x(5), x(4), x(3), y(1)]),
            lines(&[y(8), y(7), y(6), y(5), y(4), y(3), y(0)]),
            lines(&[x(0), x(1), x(2), y(2)]),
        ),
        Format::Ef9365Low => (
            lines(&[x(7), x(6), x(5), x(4), x(3), x(2), y(0)]),
            lines(&[y(7), y(6), y(5), y(4), y(3), y(2), y(1)]),
            one_line_low(state.x % 4),
        ),
    };
    AddressAnswer { number, ck_low, ck_high, msl }
}

/// The first line is the lowest bit.
fn lines(levels: &[bool]) -> u8 {
    let weighed = levels.iter().enumerate();
    weighed.map(|(place, high)| u8::from(*high) << place).sum()
}

fn one_line_low(k: u16) -> u8 {
    lines(&[k != 0, k != 1, k != 2, k != 3])
}
