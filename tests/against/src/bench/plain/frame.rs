//! VB, and what waits for it: the clears and the light pen.

use super::{LightPen, Plain, Running, PEN, PEN_END, READY, VB_RISE};

impl Plain {
    /// The refusal number, or 0.
    #[inline(never)]
    pub fn set_vb(&mut self, level: bool, picture: &mut [u8]) -> u8 {
        if picture.len() != self.window.bytes() {
            return 2;
        }
        if level != self.vb {
            self.vb = level;
            if level {
                self.frame_ends(picture);
            } else {
                self.frame_begins();
            }
        }
        0
    }

    fn frame_begins(&mut self) {
        if let Running::Clear { open, .. } = &mut self.running {
            *open = true;
        }
        if self.light_pen == LightPen::Waiting {
            self.light_pen = LightPen::Open;
        }
    }

    fn frame_ends(&mut self, picture: &mut [u8]) {
        self.rises(VB_RISE);
        match self.running {
            Running::Clear { fill, open: true, frames_left: 1 } => {
                let lit = fill && self.ctrl1 & PEN != 0;
                picture.fill(if lit { 0xFF } else { 0 });
                self.running = Running::Idle;
                self.rises(READY);
            }
            Running::Clear { fill, open: true, frames_left } => {
                self.running = Running::Clear { fill, open: false, frames_left: frames_left - 1 };
            }
            _ => {}
        }
        if self.light_pen == LightPen::Open {
            self.light_pen_ends();
        }
    }

    /// The refusal number, or 0.
    pub fn lpck(&mut self, h: u16, v: u16) -> u8 {
        if h > 63 || v > 255 {
            return 8;
        }
        if self.light_pen == LightPen::Open {
            self.xlp = (4 * h + 1) as u8;
            self.ylp = v as u8;
            self.light_pen_ends();
        }
        0
    }

    fn light_pen_ends(&mut self) {
        self.light_pen = LightPen::Off;
        self.rises(PEN_END);
    }
}
