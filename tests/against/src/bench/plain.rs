//! A plain card, the baseline to be measured against: document 01, its rule for clears mended by request b) of document 02,
//! in straightforward safe Rust, as a good engineer writes it in a day. Its state lies in fields, a command keeps what its
//! next cycle needs, cycles follow one another by additions, and each dot is clipped and written by itself. No dot costs a
//! division, and no run of dots is painted at once. Its state is its own and always a possible one, so refusal 1 cannot
//! come up. It has all calls.

mod address;
mod character;
mod command;
mod frame;
pub mod pbm;
mod register;
mod vector;
mod window;

use character::Character;
use second::Format;
use vector::Vector;
use window::{Ink, Place, Window};

#[derive(Clone)]
pub struct Plain {
    format: Format,
    window: Window,
    pub place: Place,
    pub ctrl1: u8,
    pub ctrl2: u8,
    pub csize: u8,
    pub deltax: u8,
    pub deltay: u8,
    pub xlp: u8,
    pub ylp: u8,
    pub vb: bool,
    pub light_pen: LightPen,
    /// Bits 4, 5 and 6 of STATUS, where they stand in it.
    pub flags: u8,
    pub running: Running,
}

#[derive(Clone)]
pub enum Running {
    Idle,
    /// 0F.
    OneCycle,
    Vector(Vector),
    Character(Character),
    /// 04, 06, 07 and 0C; open once VB has fallen, and again for each frame that is left.
    Clear {
        fill: bool,
        open: bool,
        frames_left: u8,
    },
}

#[derive(Clone, Copy, PartialEq, Eq, Debug)]
pub enum LightPen {
    Off,
    Waiting,
    Open,
}

const DOWN: u8 = 1 << 0;
const PEN: u8 = 1 << 1;
const CYCLIC: u8 = 1 << 3;
const TILT: u8 = 1 << 2;
const TURNED: u8 = 1 << 3;

/// The masks in CTRL1 stand where the flags do in STATUS.
const PEN_END: u8 = 1 << 4;
const VB_RISE: u8 = 1 << 5;
const READY: u8 = 1 << 6;

impl Plain {
    pub fn new(format: Format) -> Plain {
        Plain {
            format,
            window: Window::of(format),
            place: Place { x: 0, y: 0 },
            ctrl1: 0,
            ctrl2: 0,
            csize: 0x11,
            deltax: 0,
            deltay: 0,
            xlp: 0,
            ylp: 0,
            vb: false,
            light_pen: LightPen::Off,
            flags: 0,
            running: Running::Idle,
        }
    }

    /// The cycles used, or the refusal number.
    #[inline(never)]
    pub fn grant(&mut self, n: u16, picture: &mut [u8], table: &[u8]) -> Result<u16, u8> {
        if picture.len() != self.window.bytes() {
            return Err(2);
        }
        if table.len() != 480 {
            return Err(3);
        }
        let mut ink = Ink { picture, window: self.window, ctrl1: self.ctrl1 };
        let (used, over) = match &mut self.running {
            Running::Idle | Running::Clear { .. } => (0, false),
            Running::OneCycle => (n.min(1), n > 0),
            Running::Vector(vector) => vector.granted(n, &mut self.place, &mut ink),
            Running::Character(character) => character.granted(n, &mut self.place, &mut ink, table),
        };
        if over {
            self.running = Running::Idle;
            self.rises(READY);
        }
        Ok(used)
    }

    fn busy(&self) -> bool {
        !matches!(self.running, Running::Idle)
    }

    /// A signal rises, and sets its flag where its mask is high.
    fn rises(&mut self, signal: u8) {
        self.flags |= self.ctrl1 & signal;
    }
}
