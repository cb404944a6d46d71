//! How many cycles and how many frames a command takes, said once more so that causes and left-overs can be planted
//! without asking either card.

use second::{Format, State, Work};

/// None for a clear and for a command that takes no time.
pub fn cycles(state: &State, code: u8) -> Option<u16> {
    let size = |half: u8| if half == 0 { 16 } else { u16::from(half) };
    let (p, q) = (size(state.csize >> 4), size(state.csize & 15));
    match code {
        0x0F => Some(1),
        0x0B => Some(4 * p * 4 * q),
        0x0A | 0x20..=0x7F => Some(6 * p * 8 * q),
        0x10..=0x17 => Some(dots(code, state.deltax, state.deltay)),
        0x18..=0x1F => Some(u16::from(state.deltax.max(state.deltay)) + 1),
        0x80..=0xFF => Some(dots(code, code >> 5 & 3, code >> 3 & 3)),
        _ => None,
    }
}

/// An even direction leaves one axis out.
fn dots(code: u8, x_length: u8, y_length: u8) -> u16 {
    let longer = match code & 7 {
        0 | 6 => x_length,
        2 | 4 => y_length,
        _ => x_length.max(y_length),
    };
    u16::from(longer) + 1
}

/// Cycles still to come; 0 when idle, clearing, or in an impossible state.
pub fn rest(state: &State) -> u16 {
    match state.work {
        Work::Steps { code, done } => cycles(state, code).map_or(0, |count| count.saturating_sub(done)),
        Work::Idle | Work::Clear { .. } => 0,
    }
}

/// Of a clear: the picture changes and ready rises when the last of them ends.
pub fn frames(format: Format) -> u8 {
    match format {
        Format::Ef9365High => 2,
        Format::Ef9366 | Format::Ef9365Low => 1,
    }
}
