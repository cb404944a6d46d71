//! The address outputs, line by line as the table has them: the plain way to write them.

use super::Plain;
use second::Format;

impl Plain {
    /// DAD while CK is low, DAD while CK is high, and MSL.
    #[inline(never)]
    pub fn address(&self) -> [u8; 3] {
        let x = |bit: u8| self.place.x >> bit & 1 == 1;
        let y = |bit: u8| self.place.y >> bit & 1 == 1;
        match self.format {
            Format::Ef9366 => [
                lines(&[x(8), x(7), x(6), x(5), x(4), x(3), y(0)]),
                lines(&[y(7), y(6), y(5), y(4), y(3), y(2), y(1)]),
                lines(&[x(0), x(1), x(2), true]),
            ],
            Format::Ef9365High => [
                lines(&[x(8), x(7), x(6), x(5), x(4), x(3), y(1)]),
                lines(&[y(8), y(7), y(6), y(5), y(4), y(3), y(0)]),
                lines(&[x(0), x(1), x(2), y(2)]),
            ],
            Format::Ef9365Low => [
                lines(&[x(7), x(6), x(5), x(4), x(3), x(2), y(0)]),
                lines(&[y(7), y(6), y(5), y(4), y(3), y(2), y(1)]),
                all_but(self.place.x % 4),
            ],
        }
    }
}

/// The first is the lowest bit.
fn lines(levels: &[bool]) -> u8 {
    levels.iter().rev().fold(0, |lines, level| lines << 1 | u8::from(*level))
}

/// Line k alone is low.
fn all_but(k: u16) -> u8 {
    0x0F & !(1 << k)
}
