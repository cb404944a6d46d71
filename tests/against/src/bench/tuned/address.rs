//! The address outputs: the paper numbers the DAD lines against the bits, so a byte is turned over for seven lines at once.

use super::Tuned;
use second::Format;

impl Tuned {
    /// DAD while CK is low, DAD while CK is high, and MSL.
    #[inline(never)]
    pub fn address(&self) -> [u8; 3] {
        let (x, y) = (self.x as u8, self.y as u8);
        match self.format {
            Format::Ef9366 => [six(self.x >> 3) | dad6(y), seven(y), x & 7 | 8],
            Format::Ef9365High => {
                [six(self.x >> 3) | dad6(y >> 1), six(self.y >> 3) | dad6(y), x & 7 | y << 1 & 8]
            }
            Format::Ef9365Low => [six(self.x >> 2) | dad6(y), seven(y), 0x0F ^ 1 << (x & 3)],
        }
    }
}

/// Bits 5 to 0 on DAD0 to DAD5.
fn six(bits: u16) -> u8 {
    (bits as u8).reverse_bits() >> 2
}

/// Bits 7 to 1 on DAD0 to DAD6.
fn seven(bits: u8) -> u8 {
    bits.reverse_bits() & 0x7F
}

/// Bit 0 on DAD6.
fn dad6(bits: u8) -> u8 {
    bits << 6 & 0x40
}
