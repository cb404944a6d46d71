//! Helpers shared by the tests. What they expect is said in literals or in their own words,
//! never by asking the model.
#![allow(dead_code)] // each test file uses only some of them

pub mod clears;
pub mod dots;
pub mod glyph;
pub mod numbers;
pub mod pbm;
pub mod random;

use second::{cycles, fresh, lpck, read, set_vb, write, ClearKind, Flags, Format, Pen, State, Work};

pub const FORMATS: [Format; 3] = [Format::Ef9366, Format::Ef9365High, Format::Ef9365Low];

/// Those where a clear takes one frame; on the other it takes two.
pub const ONE_FRAME: [Format; 2] = [Format::Ef9366, Format::Ef9365Low];
pub const TWO_FRAMES: Format = Format::Ef9365High;

pub const CLEARS: [(u8, ClearKind); 4] = [
    (0x04, ClearKind::Screen),
    (0x06, ClearKind::ScreenAndPosition),
    (0x07, ClearKind::ScreenAndRegisters),
    (0x0C, ClearKind::Fill),
];

pub const NO_TIME: [u8; 9] = [0x00, 0x01, 0x02, 0x03, 0x05, 0x08, 0x09, 0x0D, 0x0E];

pub const NO_FLAGS: Flags = Flags { pen_end: false, vb_rise: false, ready: false };

pub fn size(format: Format) -> (usize, usize) {
    match format {
        Format::Ef9366 => (512, 256),
        Format::Ef9365High => (512, 512),
        Format::Ef9365Low => (256, 256),
    }
}

pub fn picture_bytes(format: Format) -> usize {
    match format {
        Format::Ef9366 => 16_384,
        Format::Ef9365High => 32_768,
        Format::Ef9365Low => 8_192,
    }
}

/// A picture of the right length, every byte the same.
pub fn picture(format: Format, byte: u8) -> Vec<u8> {
    vec![byte; picture_bytes(format)]
}

/// The lit dots, by y, then x.
pub fn lit(format: Format, picture: &[u8]) -> Vec<(u16, u16)> {
    let (width, height) = size(format);
    let mut dots = Vec::new();
    for y in 0..height {
        for x in 0..width {
            if picture[y * width / 8 + x / 8] & (1 << (x % 8)) != 0 {
                dots.push((x as u16, y as u16));
            }
        }
    }
    dots
}

/// Dots listed in any order, once each, as `lit` would list them.
pub fn listed(dots: &[(u16, u16)]) -> Vec<(u16, u16)> {
    let mut sorted = dots.to_vec();
    sorted.sort_by_key(|&(x, y)| (y, x));
    sorted.dedup();
    sorted
}

/// A processor with its picture and table; every call is expected to be accepted.
#[derive(Clone)]
pub struct Card {
    pub state: State,
    pub picture: Vec<u8>,
    pub table: Vec<u8>,
}

impl Card {
    /// Pen down over a dark picture, as the readings of document 01 have it.
    pub fn new(format: Format) -> Card {
        let mut state = fresh(format);
        state.ctrl1 = 3;
        Card { state, picture: picture(format, 0), table: vec![0; 480] }
    }

    pub fn at(format: Format, x: u16, y: u16) -> Card {
        let mut card = Card::new(format);
        card.state.x = x;
        card.state.y = y;
        card
    }

    pub fn write(&mut self, address: u8, value: u8) -> &mut Card {
        let answer = write(&self.state, address, value);
        assert_eq!((answer.number, answer.value), (0, 0), "write {address:X} {value:02X}");
        self.state = answer.state;
        self
    }

    pub fn command(&mut self, code: u8) -> &mut Card {
        self.write(0, code)
    }

    pub fn deltas(&mut self, x: u8, y: u8) -> &mut Card {
        self.write(5, x).write(7, y)
    }

    pub fn read(&mut self, address: u8) -> u16 {
        let answer = read(&self.state, address);
        assert_eq!(answer.number, 0, "read {address:X}");
        self.state = answer.state;
        answer.value
    }

    pub fn status(&mut self) -> u16 {
        self.read(0)
    }

    pub fn grant(&mut self, n: u16) -> u16 {
        let answer = cycles(&self.state, n, &mut self.picture, &self.table);
        assert_eq!(answer.number, 0, "grant {n}");
        self.state = answer.state;
        answer.value
    }

    /// A command from its acceptance to its last cycle; gives the cycles it took.
    pub fn run(&mut self, code: u8) -> u16 {
        self.command(code);
        let used = self.grant(65_535);
        assert_eq!(self.state.work, Work::Idle, "{code:02X} has ended");
        used
    }

    pub fn vb(&mut self, level: bool) -> &mut Card {
        let answer = set_vb(&self.state, level, &mut self.picture);
        assert_eq!((answer.number, answer.value), (0, 0), "VB {level}");
        self.state = answer.state;
        self
    }

    pub fn edge(&mut self, h: u16, v: u16) -> &mut Card {
        let answer = lpck(&self.state, h, v);
        assert_eq!((answer.number, answer.value), (0, 0), "LPCK {h} {v}");
        self.state = answer.state;
        self
    }

    pub fn dots(&self) -> Vec<(u16, u16)> {
        lit(self.state.format, &self.picture)
    }

    pub fn place(&self) -> (u16, u16) {
        (self.state.x, self.state.y)
    }

    /// The places of every cycle of a command in turn, as X and Y show them before each.
    pub fn places(&mut self, code: u8) -> Vec<(u16, u16)> {
        self.command(code);
        let mut places = Vec::new();
        while self.state.work != Work::Idle {
            places.push(self.place());
            assert_eq!(self.grant(1), 1);
        }
        places
    }
}

/// Row 1 of the refusals, said a second time for the tests.
pub fn is_good(state: &State) -> bool {
    let work_is_good = match state.work {
        Work::Idle | Work::Clear { open: false, .. } => true,
        Work::Clear { open: true, .. } => !state.vb,
        Work::Steps { code, done } => cycle_count(state, code).is_some_and(|count| u32::from(done) < count),
    };
    work_is_good
        && state.x <= 4095
        && state.y <= 4095
        && state.ctrl1 <= 127
        && state.ctrl2 <= 15
        && matches!(state.xlp % 4, 0 | 1)
        && !(state.vb && state.pen == Pen::Open)
}

pub fn takes_glyph_cells(code: u8) -> bool {
    code == 0x0A || code == 0x0B || (0x20..0x80).contains(&code)
}

/// The cycles a command takes in all; None for a clear or one that takes no time.
pub fn cycle_count(state: &State, code: u8) -> Option<u32> {
    let half = |bits: u8| if bits == 0 { 16 } else { u32::from(bits) };
    let (p, q) = (half(state.csize / 16), half(state.csize % 16));
    let (x, y) = (u32::from(state.deltax), u32::from(state.deltay));
    let longest = |x: u32, y: u32| match code % 8 {
        0 | 6 => x,
        2 | 4 => y,
        _ => x.max(y),
    };
    match code {
        0x0F => Some(1),
        0x0B => Some(16 * p * q),
        0x0A | 0x20..=0x7F => Some(48 * p * q),
        0x10..=0x17 => Some(longest(x, y) + 1),
        0x18..=0x1F => Some(x.max(y) + 1),
        0x80..=0xFF => Some(longest(u32::from(code) / 32 % 4, u32::from(code) / 8 % 4) + 1),
        _ => None,
    }
}
