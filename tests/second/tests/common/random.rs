//! Random states and values, the same on every run.

use super::{cycle_count, is_good, CLEARS, FORMATS};
use second::{Flags, Pen, State, Work};

/// A xorshift generator: the same numbers on every run.
pub struct Random(pub u64);

impl Random {
    pub fn next(&mut self) -> u64 {
        self.0 ^= self.0 << 13;
        self.0 ^= self.0 >> 7;
        self.0 ^= self.0 << 17;
        self.0 >> 11
    }

    pub fn below(&mut self, bound: u64) -> u64 {
        self.next() % bound
    }

    pub fn flag(&mut self) -> bool {
        self.below(2) == 1
    }

    pub fn byte(&mut self) -> u8 {
        self.below(256) as u8
    }

    pub fn bytes(&mut self, count: usize) -> Vec<u8> {
        (0..count).map(|_| self.byte()).collect()
    }

    pub fn pick<T: Copy>(&mut self, from: &[T]) -> T {
        from[self.below(from.len() as u64) as usize]
    }

    /// Positions close to an edge of some window come up often.
    fn position(&mut self) -> u16 {
        let around = self.pick(&[0, 256, 512, 4096, 2048]);
        let spread = self.pick(&[8, 8, 200, 2048]);
        ((around + 4096 + self.below(2 * spread) - spread) % 4096) as u16
    }

    fn work(&mut self) -> Work {
        match self.below(8) {
            0 | 1 => Work::Idle,
            2 => {
                let frames_done = self.pick(&[0, 0, 1, 1, 2, 255]);
                Work::Clear { kind: self.pick(&CLEARS).1, open: self.flag(), frames_done }
            }
            _ => Work::Steps { code: self.byte(), done: self.below(70) as u16 },
        }
    }

    /// Any values the types allow, though mostly small ones.
    pub fn any_state(&mut self) -> State {
        State {
            format: self.pick(&FORMATS),
            ctrl1: if self.below(8) == 0 { self.byte() } else { self.byte() & 0x7F },
            ctrl2: if self.below(8) == 0 { self.byte() } else { self.byte() & 0x0F },
            csize: self.pick(&[0x11, 0x12, 0x21, 0x32, 0x23, 0x00, 0x0F, 0xF1]),
            deltax: if self.flag() { self.byte() } else { self.below(8) as u8 },
            deltay: if self.flag() { self.byte() } else { self.below(8) as u8 },
            x: if self.below(16) == 0 { self.below(65_536) as u16 } else { self.position() },
            y: if self.below(16) == 0 { self.below(65_536) as u16 } else { self.position() },
            xlp: if self.below(8) == 0 { self.byte() } else { self.byte() & 0xFD },
            ylp: self.byte(),
            work: self.work(),
            pen: self.pick(&[Pen::Off, Pen::Waiting, Pen::Open]),
            vb: self.flag(),
            flags: Flags { pen_end: self.flag(), vb_rise: self.flag(), ready: self.flag() },
        }
    }

    pub fn good_state(&mut self) -> State {
        loop {
            let mut state = self.any_state();
            if let Work::Steps { code, .. } = state.work {
                // Any progress of the command, not only a small one.
                let Some(count) = cycle_count(&state, code) else {
                    continue;
                };
                state.work = Work::Steps { code, done: self.below(u64::from(count)) as u16 };
            }
            if is_good(&state) {
                return state;
            }
        }
    }
}
