//! The lent picture: one dot by its place, by pen or eraser, or the whole at once.

use crate::format::Format;
use crate::state::{State, CTRL1_CYCLIC, CTRL1_DOWN, CTRL1_PEN};

/// Writes at the present X and Y, if the pen or eraser is down and the place is in the window.
pub fn write_dot(state: &State, picture: &mut [u8]) {
    if !state.ctrl1_has(CTRL1_DOWN) {
        return;
    }
    let Some((x, y)) = dot(state) else {
        return;
    };
    put_dot(state.format, picture, (x, y), state.ctrl1_has(CTRL1_PEN));
}

pub fn put_dot(format: Format, picture: &mut [u8], place: (u16, u16), lit: bool) {
    let (byte, bit) = byte_and_bit(format, place);
    if lit {
        picture[byte] |= bit;
    } else {
        picture[byte] &= !bit;
    }
}

pub fn is_lit(format: Format, picture: &[u8], place: (u16, u16)) -> bool {
    let (byte, bit) = byte_and_bit(format, place);
    picture[byte] & bit != 0
}

fn byte_and_bit(format: Format, (x, y): (u16, u16)) -> (usize, u8) {
    let bytes_in_line = format.width() / 8;
    let byte = usize::from(y) * usize::from(bytes_in_line) + usize::from(x / 8);
    (byte, 1 << (x % 8))
}

/// Where the present place falls in the window; a cyclic screen ignores the unused upper bits.
fn dot(state: &State) -> Option<(u16, u16)> {
    let (width, height) = (state.format.width(), state.format.height());
    if state.ctrl1_has(CTRL1_CYCLIC) {
        return Some((state.x % width, state.y % height));
    }
    let inside = state.x < width && state.y < height;
    inside.then_some((state.x, state.y))
}

/// Every dot at once, lit or dark.
pub fn fill(picture: &mut [u8], lit: bool) {
    picture.fill(if lit { 0xFF } else { 0x00 });
}
