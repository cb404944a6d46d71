//! Characters and blocks by the printed formulas, said once more so that neither card is asked: where each cycle falls,
//! and which have a dot.

use second::{Format, State};

/// Of CTRL1.
pub const DOWN: u8 = 1 << 0;
pub const PEN: u8 = 1 << 1;
pub const CYCLIC: u8 = 1 << 3;
/// Of CTRL2.
pub const TILT: u8 = 1 << 2;
pub const TURNED: u8 = 1 << 3;

/// X and Y step around here.
const POSITIONS: i32 = 4096;

/// A place that is not taken modulo 4,096, or how far one lies from another.
pub type Place = (i32, i32);

/// A command 20 to 7F, 0A or 0B at its size, and how it lies.
pub struct Character {
    code: u8,
    pub p: u16,
    pub q: u16,
    pub is_tilted: bool,
    pub is_turned: bool,
}

impl Character {
    /// None for any other command.
    pub fn of(state: &State, code: u8) -> Option<Character> {
        matches!(code, 0x0A | 0x0B | 0x20..=0x7F).then_some(Character {
            code,
            p: size(state.csize >> 4),
            q: size(state.csize & 15),
            is_tilted: state.ctrl2 & TILT != 0,
            is_turned: state.ctrl2 & TURNED != 0,
        })
    }

    /// Its lines, after scaling: v runs below.
    pub fn lines(&self) -> u16 {
        if self.code == 0x0B {
            4 * self.q
        } else {
            8 * self.q
        }
    }

    /// Where cycle i falls, from X and Y at the command.
    pub fn offset(&self, i: u16) -> Place {
        let (u, v) = (i32::from(i / self.lines()), i32::from(i % self.lines()));
        match (self.is_tilted, self.is_turned) {
            (false, false) => (u, v),
            (true, false) => (u + v, v),
            (false, true) => (-v, u),
            (true, true) => (-v, u + v),
        }
    }

    /// Where it leaves X and Y, likewise: tilt does nothing to that.
    pub fn end(&self) -> Place {
        let columns = if self.code == 0x0B { 4 } else { 6 };
        let along = i32::from(columns * self.p);
        if self.is_turned {
            (0, along)
        } else {
            (along, 0)
        }
    }

    pub fn has_dot(&self, i: u16, table: &[u8]) -> bool {
        let (column, row) = (i / self.lines() / self.p, i % self.lines() / self.q);
        match (self.code, column) {
            (0x0B, _) => true,
            (_, 5) => false,
            (0x0A, _) => true,
            (code, _) => table[5 * usize::from(code - 0x20) + usize::from(column)] >> row & 1 == 1,
        }
    }
}

fn size(half: u8) -> u16 {
    if half == 0 {
        16
    } else {
        u16::from(half)
    }
}

/// As X and Y have it.
pub fn stepped_around((x, y): Place) -> Place {
    (x.rem_euclid(POSITIONS), y.rem_euclid(POSITIONS))
}

/// Width and height.
pub fn window(format: Format) -> Place {
    match format {
        Format::Ef9366 => (512, 256),
        Format::Ef9365High => (512, 512),
        Format::Ef9365Low => (256, 256),
    }
}

/// The byte and the bit of the picture that a dot written at X and Y changes; None outside the window.
pub fn written(format: Format, ctrl1: u8, (x, y): Place) -> Option<(usize, u8)> {
    let (width, height) = window(format);
    if ctrl1 & CYCLIC == 0 && (x >= width || y >= height) {
        return None;
    }
    let (x, y) = (x % width, y % height);
    Some(((y * (width / 8) + x / 8) as usize, 1 << (x % 8)))
}
