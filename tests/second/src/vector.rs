//! The vector generator: lengths and directions, the place of each dot, and the line types.

use crate::state::State;

/// A vector with its axes told apart; an axis the code leaves out has length 0.
pub struct Vector {
    x_length: i32,
    y_length: i32,
    x_direction: i32,
    y_direction: i32,
    line_type: u8,
}

/// For the low three bits of the code, the directions in X and Y; 0 where only the other axis is used.
const DIRECTIONS: [(i32, i32); 8] = [(1, 0), (1, 1), (0, 1), (-1, 1), (0, -1), (1, -1), (-1, 0), (-1, -1)];

impl Vector {
    pub fn of(state: &State, code: u8) -> Option<Vector> {
        let deltax = i32::from(state.deltax);
        let deltay = i32::from(state.deltay);
        match code {
            0x10..=0x17 => Some(Vector::directed(state, code, deltax, deltay)),
            0x18..=0x1F => {
                // Both become the larger first; only then is an unused axis left out (reading 55).
                let larger = deltax.max(deltay);
                Some(Vector::directed(state, code, larger, larger))
            }
            0x80..=0xFF => {
                let short_x = i32::from(code >> 5 & 0b11);
                let short_y = i32::from(code >> 3 & 0b11);
                Some(Vector::directed(state, code, short_x, short_y))
            }
            _ => None,
        }
    }

    fn directed(state: &State, code: u8, x_length: i32, y_length: i32) -> Vector {
        let (x_direction, y_direction) = DIRECTIONS[usize::from(code & 0b111)];
        Vector {
            x_length: if x_direction == 0 { 0 } else { x_length },
            y_length: if y_direction == 0 { 0 } else { y_length },
            x_direction,
            y_direction,
            line_type: state.line_type(),
        }
    }

    fn longer(&self) -> i32 {
        self.x_length.max(self.y_length)
    }

    fn shorter(&self) -> i32 {
        self.x_length.min(self.y_length)
    }

    pub fn count(&self) -> u16 {
        self.longer() as u16 + 1
    }

    /// From dot 0 to dot i.
    pub fn offset(&self, i: u16) -> (i32, i32) {
        let along = i32::from(i);
        let across = across(self.longer(), self.shorter(), along);
        if self.x_length >= self.y_length {
            (self.x_direction * along, self.y_direction * across)
        } else {
            (self.x_direction * across, self.y_direction * along)
        }
    }

    /// At the end X and Y stand on the last dot.
    pub fn end(&self) -> (i32, i32) {
        self.offset(self.longer() as u16)
    }

    pub fn has_dot(&self, i: u16) -> bool {
        on(self.line_type, i)
    }
}

/// How far dot i lies along the shorter axis; a tie goes away from the start, whatever the sign (reading 60).
fn across(longer: i32, shorter: i32, i: i32) -> i32 {
    if longer == 0 {
        0
    } else {
        (2 * i * shorter + longer) / (2 * longer)
    }
}

/// The pattern counts dots from dot 0 of each vector, written or not (reading 65).
fn on(line_type: u8, i: u16) -> bool {
    match line_type {
        0 => true,
        1 => i % 4 < 2,
        2 => i % 8 < 4,
        _ => i % 16 < 10 || i % 16 == 12 || i % 16 == 13,
    }
}
