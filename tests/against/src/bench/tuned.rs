//! A card tuned by hand, as the mark to be measured against. It keeps the error term of a vector and the cell
//! of a character instead of finding them again, steps the number of a dot, clips a command once where it can,
//! and paints scaled characters by rows. Of the checks it keeps those a careful programmer would: lengths,
//! addresses, busy. It has no clears, no VB and no pen: for a clear the mark is a plain fill.

mod address;
mod character;
pub mod pbm;
mod vector;

use character::CharacterRun;
use second::Format;
use vector::VectorRun;

#[derive(Clone)]
pub struct Tuned {
    pub x: u16,
    pub y: u16,
    ctrl1: u8,
    ctrl2: u8,
    csize: u8,
    deltax: u8,
    deltay: u8,
    /// STATUS bit 6.
    ready_flag: bool,
    format: Format,
    width: u16,
    height: u16,
    /// Bytes in a line are 1 << line_shift.
    line_shift: u32,
    running: Running,
}

#[derive(Clone)]
enum Running {
    Idle,
    OneCycle,
    Vector(VectorRun),
    Character(CharacterRun),
}

const DOWN: u8 = 1 << 0;
const PEN: u8 = 1 << 1;
const CYCLIC: u8 = 1 << 3;
const READY_MASK: u8 = 1 << 6;
const TILT: u8 = 1 << 2;
const TURNED: u8 = 1 << 3;
const TWELVE_BITS: u16 = 0x0FFF;

impl Tuned {
    pub fn new(format: Format) -> Tuned {
        Tuned {
            x: 0,
            y: 0,
            ctrl1: 0,
            ctrl2: 0,
            csize: 0x11,
            deltax: 0,
            deltay: 0,
            ready_flag: false,
            format,
            width: format.width(),
            height: format.height(),
            line_shift: (format.width() / 8).trailing_zeros(),
            running: Running::Idle,
        }
    }

    pub fn busy(&self) -> bool {
        !matches!(self.running, Running::Idle)
    }

    /// The refusal number, or 0.
    #[inline(never)]
    pub fn write(&mut self, address: u8, value: u8) -> u8 {
        if self.busy() && !matches!(address, 4 | 6 | 12..) {
            return 6;
        }
        match address {
            0 => self.command(value),
            1 => self.ctrl1 = value & 0x7F,
            2 => self.ctrl2 = value & 0x0F,
            3 => self.csize = value,
            5 => self.deltax = value,
            7 => self.deltay = value,
            8 => self.x = u16::from(value & 0x0F) << 8 | self.x & 0xFF,
            9 => self.x = self.x & 0xF00 | u16::from(value),
            10 => self.y = u16::from(value & 0x0F) << 8 | self.y & 0xFF,
            11 => self.y = self.y & 0xF00 | u16::from(value),
            12 | 13 => return 5,
            _ => return 4,
        }
        0
    }

    #[inline(never)]
    pub fn read(&mut self, address: u8) -> Result<u8, u8> {
        Ok(match address {
            0 => self.status(),
            1 => self.ctrl1,
            2 => self.ctrl2,
            3 => self.csize,
            5 => self.deltax,
            7 => self.deltay,
            8 => (self.x >> 8) as u8,
            9 => self.x as u8,
            10 => (self.y >> 8) as u8,
            11 => self.y as u8,
            12 | 13 => 0,
            _ => return Err(4),
        })
    }

    fn status(&mut self) -> u8 {
        let outside = self.x >= self.width || self.y >= self.height;
        let ready = u8::from(std::mem::take(&mut self.ready_flag));
        1 | u8::from(!self.busy()) << 2 | u8::from(outside) << 3 | ready << 6 | ready << 7
    }

    fn command(&mut self, code: u8) {
        match code {
            0x10..=0x1F | 0x80..=0xFF => self.running = Running::Vector(VectorRun::new(self, code)),
            0x0A | 0x0B | 0x20..=0x7F => self.running = Running::Character(CharacterRun::new(self, code)),
            0x0F => self.running = Running::OneCycle,
            _ => self.at_once(code),
        }
    }

    fn at_once(&mut self, code: u8) {
        match code {
            0x00 => self.ctrl1 |= PEN,
            0x01 => self.ctrl1 &= !PEN,
            0x02 => self.ctrl1 |= DOWN,
            0x03 => self.ctrl1 &= !DOWN,
            0x05 => (self.x, self.y) = (0, 0),
            0x0D => self.x = 0,
            0x0E => self.y = 0,
            _ => unimplemented!("clears and the pen are not timed against this card"),
        }
        self.ready();
    }

    /// The cycles used, or the refusal number.
    #[inline(never)]
    pub fn grant(&mut self, n: u16, picture: &mut [u8], table: &[u8]) -> Result<u16, u8> {
        if picture.len() != usize::from(self.height) << self.line_shift {
            return Err(2);
        }
        let Ok(table) = <&[u8; 480]>::try_from(table) else {
            return Err(3);
        };
        if n == 0 {
            return Ok(0);
        }
        // Taken out while it runs, so that it and the card can both be changed.
        match std::mem::replace(&mut self.running, Running::Idle) {
            Running::Idle => Ok(0),
            Running::OneCycle => {
                self.ready();
                Ok(1)
            }
            Running::Vector(mut run) => {
                let used = run.granted(self, n, picture);
                self.keep(run.is_over(), Running::Vector(run));
                Ok(used)
            }
            Running::Character(mut run) => {
                let used = run.granted(self, n, picture, table);
                self.keep(run.is_over(), Running::Character(run));
                Ok(used)
            }
        }
    }

    fn keep(&mut self, over: bool, running: Running) {
        if over {
            self.ready();
        } else {
            self.running = running;
        }
    }

    fn ready(&mut self) {
        self.ready_flag |= self.ctrl1 & READY_MASK != 0;
    }

    /// One dot at the present place, clipped or folded.
    #[inline(always)]
    fn dot(&self, picture: &mut [u8]) {
        let (mut x, mut y) = (self.x, self.y);
        if self.ctrl1 & CYCLIC != 0 {
            (x, y) = (x & (self.width - 1), y & (self.height - 1));
        }
        if x < self.width && y < self.height && self.ctrl1 & DOWN != 0 {
            let byte = &mut picture[(usize::from(y) << self.line_shift) + usize::from(x >> 3)];
            let mask = 1 << (x & 7);
            *byte = if self.ctrl1 & PEN != 0 { *byte | mask } else { *byte & !mask };
        }
    }
}
