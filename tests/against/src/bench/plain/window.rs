//! Positions of 12 bits, the window they may lie in, and one dot of the picture.

use super::{CYCLIC, DOWN, PEN};
use second::Format;

#[derive(Clone, Copy, PartialEq, Eq, Debug)]
pub struct Place {
    pub x: u16,
    pub y: u16,
}

const TWELVE_BITS: u16 = 0x0FFF;

impl Place {
    /// Modulo 4,096; a step back is the step's negative as a u16.
    #[inline]
    pub fn step(&mut self, x: u16, y: u16) {
        self.x = self.x.wrapping_add(x) & TWELVE_BITS;
        self.y = self.y.wrapping_add(y) & TWELVE_BITS;
    }
}

/// Its sides are powers of two.
#[derive(Clone, Copy)]
pub struct Window {
    width: u16,
    height: u16,
}

impl Window {
    pub fn of(format: Format) -> Window {
        Window { width: format.width(), height: format.height() }
    }

    pub fn bytes(&self) -> usize {
        usize::from(self.width / 8) * usize::from(self.height)
    }

    /// A frame passes over 256 lines, so a clear of 512 takes two.
    pub fn frames(&self) -> u8 {
        if self.height > 256 {
            2
        } else {
            1
        }
    }

    pub fn has(&self, place: Place) -> bool {
        place.x < self.width && place.y < self.height
    }
}

/// The picture, and how CTRL1 says that it is written.
pub struct Ink<'a> {
    pub picture: &'a mut [u8],
    pub window: Window,
    pub ctrl1: u8,
}

impl Ink<'_> {
    #[inline]
    pub fn dot(&mut self, mut place: Place) {
        if self.ctrl1 & DOWN == 0 {
            return;
        }
        if self.ctrl1 & CYCLIC != 0 {
            place.x &= self.window.width - 1;
            place.y &= self.window.height - 1;
        } else if !self.window.has(place) {
            return;
        }
        let byte = usize::from(place.y) * usize::from(self.window.width / 8) + usize::from(place.x / 8);
        let bit = 1 << (place.x % 8);
        if self.ctrl1 & PEN != 0 {
            self.picture[byte] |= bit;
        } else {
            self.picture[byte] &= !bit;
        }
    }
}
