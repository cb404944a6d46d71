//! Commands about to run, each on a card of its own: what the workloads draw.

use super::runner::Runner;
use second::Format;

#[derive(Clone, Copy, PartialEq, Eq, Debug)]
pub enum Figures {
    /// Vectors of 255 dots, two slopes in each quadrant.
    Vectors { ctrl1: u8, line_type: u8, start: Start },
    /// Ten characters side by side.
    Letters { ctrl1: u8, ctrl2: u8, csize: u8 },
    /// 0A and 0B, twice each.
    Blocks { csize: u8 },
}

/// Where the vectors begin.
#[derive(Clone, Copy, PartialEq, Eq, Debug)]
pub enum Start {
    /// Every dot lies in the window.
    Inside,
    /// Half of the dots do: those that run up or right leave the window there, the others come in.
    Across,
}

/// CTRL1: pen down, pen up, and down on a cyclic screen.
pub const DOWN: u8 = 0x03;
pub const UP: u8 = 0x02;
pub const CYCLIC: u8 = 0x0B;

/// CTRL2: characters straight, slanted, and slanted upwards.
pub const STRAIGHT: u8 = 0x00;
pub const SLANTED: u8 = 0x04;
pub const SLANTED_UP: u8 = 0x0C;

pub const VECTORS: Figures = Figures::Vectors { ctrl1: DOWN, line_type: 0, start: Start::Inside };
pub const LETTERS: Figures = Figures::Letters { ctrl1: DOWN, ctrl2: STRAIGHT, csize: 0x11 };

/// A vector's code, and where the vectors that stay inside begin.
const QUADRANTS: [(u8, u16, u16); 4] = [(0x11, 100, 0), (0x13, 400, 0), (0x15, 100, 255), (0x17, 400, 255)];
const SLOPES: [(u8, u8); 2] = [(254, 97), (97, 254)];
const CHARACTERS: [u8; 10] = [0x41, 0x52, 0x33, 0x6B, 0x20, 0x7F, 0x2B, 0x58, 0x65, 0x39];
const BLOCKS: [(u16, u8); 4] = [(3, 0x0A), (100, 0x0B), (200, 0x0A), (301, 0x0B)];

impl Figures {
    pub fn cards<R: Runner>(self) -> Vec<R> {
        match self {
            Figures::Vectors { ctrl1, line_type, start } => vectors(ctrl1, line_type, start),
            Figures::Letters { ctrl1, ctrl2, csize } => {
                // those that run upwards have their rows to the left
                let first = if ctrl2 < 8 { 5 } else { 133 };
                let places = CHARACTERS.iter().enumerate();
                places
                    .map(|(i, code)| character((ctrl1, ctrl2, csize), first + 37 * i as u16, *code))
                    .collect()
            }
            Figures::Blocks { csize } => {
                BLOCKS.map(|(x, code)| character((DOWN, STRAIGHT, csize), x, code)).into()
            }
        }
    }

    /// The write cycles of each.
    pub fn cycles(self) -> Vec<u16> {
        match self {
            Figures::Vectors { .. } => vec![255; 8],
            Figures::Letters { csize, .. } => vec![48 * cell(csize); 10],
            Figures::Blocks { csize } => [48, 16, 48, 16].map(|cells| cells * cell(csize)).into(),
        }
    }
}

/// P times Q.
fn cell(csize: u8) -> u16 {
    let size = |half: u8| if half == 0 { 16 } else { u16::from(half) };
    size(csize >> 4) * size(csize & 15)
}

pub fn set<R: Runner>(mut card: R, writes: &[(u8, u8)]) -> R {
    writes.iter().for_each(|(address, value)| card.write(*address, *value));
    card
}

fn vectors<R: Runner>(ctrl1: u8, line_type: u8, start: Start) -> Vec<R> {
    let both = QUADRANTS.iter().flat_map(|quadrant| SLOPES.map(|slope| (*quadrant, slope)));
    both.map(|((code, x, y), (deltax, deltay))| {
        let (x, y) = match start {
            Start::Inside => (x, y),
            Start::Across => across(code, deltax > deltay),
        };
        let card = set(at(Format::Ef9366, x, y), &[(1, ctrl1), (2, line_type), (5, deltax), (7, deltay)]);
        set(card, &[(0, code)])
    })
    .collect()
}

/// The middle of the vector lies on the window's right edge or on its upper one.
fn across(code: u8, flat: bool) -> (u16, u16) {
    let (left, down) = (code & 2 != 0, code & 4 != 0);
    if flat {
        (if left { 512 + 127 } else { 512 - 127 }, if down { 200 } else { 20 })
    } else {
        (if left { 400 } else { 100 }, if down { 256 + 127 } else { 256 - 127 })
    }
}

fn character<R: Runner>((ctrl1, ctrl2, csize): (u8, u8, u8), x: u16, code: u8) -> R {
    set(at(Format::Ef9366, x, 60), &[(1, ctrl1), (2, ctrl2), (3, csize), (0, code)])
}

pub fn at<R: Runner>(format: Format, x: u16, y: u16) -> R {
    set(R::fresh(format), &[(8, (x >> 8) as u8), (9, x as u8), (10, (y >> 8) as u8), (11, y as u8)])
}
