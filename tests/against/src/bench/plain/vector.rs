//! Vectors by their error term: 2 × i × m + M, less 2 × M for each step across.

use super::window::{Ink, Place};
use super::Plain;

#[derive(Clone)]
pub struct Vector {
    longer: u16,
    shorter: u16,
    /// Dots still to come.
    left: u16,
    error: u16,
    /// From a dot to the next: along the longer axis only, and across as well.
    straight: (u16, u16),
    slanted: (u16, u16),
    /// The line type, its next dot lowest; every period divides sixteen.
    pattern: u16,
}

const PATTERNS: [u16; 4] = [0xFFFF, 0x3333, 0x0F0F, 0x33FF];
const BACK: u16 = 1u16.wrapping_neg();

impl Vector {
    pub fn new(card: &Plain, code: u8) -> Vector {
        let (x_length, y_length) = lengths(card, code);
        let x_step = if matches!(code & 7, 3 | 6 | 7) { BACK } else { 1 };
        let y_step = if matches!(code & 7, 4 | 5 | 7) { BACK } else { 1 };
        let longer = x_length.max(y_length);
        Vector {
            longer,
            shorter: x_length.min(y_length),
            left: longer + 1,
            error: longer,
            straight: if x_length >= y_length { (x_step, 0) } else { (0, y_step) },
            slanted: (x_step, y_step),
            pattern: PATTERNS[usize::from(card.ctrl2 & 3)],
        }
    }

    /// The cycles used, and whether the last was among them.
    pub fn granted(&mut self, n: u16, place: &mut Place, ink: &mut Ink) -> (u16, bool) {
        let used = n.min(self.left);
        for _ in 0..used {
            if self.pattern & 1 != 0 {
                ink.dot(*place);
            }
            self.pattern = self.pattern.rotate_right(1);
            self.left -= 1;
            // At the end X and Y stand on the last dot.
            if self.left > 0 {
                self.step(place);
            }
        }
        (used, self.left == 0)
    }

    fn step(&mut self, place: &mut Place) {
        self.error += 2 * self.shorter;
        if self.error >= 2 * self.longer {
            self.error -= 2 * self.longer;
            place.step(self.slanted.0, self.slanted.1);
        } else {
            place.step(self.straight.0, self.straight.1);
        }
    }

    /// Cycles behind it.
    pub fn done(&self) -> u16 {
        self.longer + 1 - self.left
    }
}

fn lengths(card: &Plain, code: u8) -> (u16, u16) {
    let (x, y) = match code {
        0x80.. => (code >> 5 & 3, code >> 3 & 3),
        0x18.. => (card.deltax.max(card.deltay), card.deltax.max(card.deltay)),
        _ => (card.deltax, card.deltay),
    };
    match code & 7 {
        0 | 6 => (u16::from(x), 0),
        2 | 4 => (0, u16::from(y)),
        _ => (u16::from(x), u16::from(y)),
    }
}
