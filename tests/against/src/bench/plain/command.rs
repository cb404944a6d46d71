//! What an accepted command changes at once, and what it leaves running.

use super::character::Character;
use super::vector::Vector;
use super::window::Place;
use super::{LightPen, Plain, Running, DOWN, PEN, READY};

const ORIGIN: Place = Place { x: 0, y: 0 };

impl Plain {
    pub(super) fn command(&mut self, code: u8) {
        match code {
            0x10..=0x1F | 0x80.. => self.running = Running::Vector(Vector::new(self, code)),
            0x0A | 0x0B | 0x20..=0x7F => self.running = Running::Character(Character::new(self, code)),
            0x0F => self.running = Running::OneCycle,
            0x04 | 0x06 | 0x07 | 0x0C => self.clear(code),
            _ => self.at_once(code),
        }
    }

    /// The picture waits for its frames; the registers do not.
    fn clear(&mut self, code: u8) {
        match code {
            0x06 => self.place = ORIGIN,
            0x07 => {
                self.place = ORIGIN;
                (self.ctrl1, self.ctrl2, self.csize) = (0, 0, 0x11);
                (self.deltax, self.deltay) = (0, 0);
            }
            _ => {}
        }
        self.running = Running::Clear { fill: code == 0x0C, open: false, frames_left: self.window.frames() };
    }

    fn at_once(&mut self, code: u8) {
        match code {
            0x00 => self.ctrl1 |= PEN,
            0x01 => self.ctrl1 &= !PEN,
            0x02 => self.ctrl1 |= DOWN,
            0x03 => self.ctrl1 &= !DOWN,
            0x05 => self.place = ORIGIN,
            0x0D => self.place.x = 0,
            0x0E => self.place.y = 0,
            // 08 and 09
            _ => self.light_pen = LightPen::Waiting,
        }
        self.rises(READY);
    }
}
