//! Registers written and read, and the STATUS byte.

use super::{LightPen, Plain};

impl Plain {
    /// The refusal number, or 0.
    #[inline(never)]
    pub fn write(&mut self, address: u8, value: u8) -> u8 {
        match address {
            4 | 6 | 14.. => return 4,
            12 | 13 => return 5,
            _ if self.busy() => return 6,
            0 => self.command(value),
            1 => self.ctrl1 = value & 0x7F,
            2 => self.ctrl2 = value & 0x0F,
            3 => self.csize = value,
            5 => self.deltax = value,
            7 => self.deltay = value,
            8 => self.place.x = with_upper(self.place.x, value),
            9 => self.place.x = with_lower(self.place.x, value),
            10 => self.place.y = with_upper(self.place.y, value),
            11 => self.place.y = with_lower(self.place.y, value),
        }
        0
    }

    /// The value, or the refusal number.
    #[inline(never)]
    pub fn read(&mut self, address: u8) -> Result<u8, u8> {
        Ok(match address {
            0 => self.status(),
            1 => self.ctrl1,
            2 => self.ctrl2,
            3 => self.csize,
            5 => self.deltax,
            7 => self.deltay,
            8 => (self.place.x >> 8) as u8,
            9 => self.place.x as u8,
            10 => (self.place.y >> 8) as u8,
            11 => self.place.y as u8,
            12 => {
                let shown = self.xlp;
                self.xlp &= !1;
                shown
            }
            13 => {
                self.xlp &= !1;
                self.ylp
            }
            _ => return Err(4),
        })
    }

    /// Shown, and then its flags are gone.
    fn status(&mut self) -> u8 {
        let flags = std::mem::take(&mut self.flags);
        u8::from(self.light_pen == LightPen::Off)
            | u8::from(self.vb) << 1
            | u8::from(!self.busy()) << 2
            | u8::from(!self.window.has(self.place)) << 3
            | flags
            | u8::from(flags != 0) << 7
    }
}

fn with_upper(position: u16, value: u8) -> u16 {
    u16::from(value & 0x0F) << 8 | position & 0xFF
}

fn with_lower(position: u16, value: u8) -> u16 {
    position & 0xF00 | u16::from(value)
}
