//! What a run has covered of characters as they lie: straight and slanted, along a line and upwards; and of vectors with
//! tilt high, which does nothing to them.

use crate::call::Call;
use crate::draw::arguments::{bytes, TABLE_BYTES};
use crate::draw::count;
use crate::formula::{stepped_around, window, written, Character, Place, CYCLIC, DOWN, PEN, TILT};
use crate::scene::Memories;
use second::{State, Work};
use std::ops::Range;

const WAYS: [&str; 4] = ["straight", "slanted", "upwards", "slanted upwards"];
const CODES: [&str; 3] = ["a character 20 to 7F", "0A", "0B"];
const VECTORS: [&str; 3] = ["10 to 17", "18 to 1F", "80 to FF"];
const LINE_TYPES: usize = 4;

/// What a grant to a character meets.
const MET: [(&str, fn(&Drawn) -> bool); 8] = [
    ("granted to its end", |drawn| drawn.is_ended),
    ("granted in part", |drawn| !drawn.is_ended),
    ("with neither P nor Q 1", |drawn| drawn.is_scaled),
    ("all inside the window", |drawn| drawn.shows && drawn.is_inside),
    ("cut by an edge of the window", |drawn| drawn.shows && drawn.is_parted && !drawn.is_cyclic),
    ("across an edge of a cyclic screen", |drawn| drawn.shows && drawn.is_parted && drawn.is_cyclic),
    ("stepping around 4,096", |drawn| drawn.steps_around),
    ("erased", |drawn| drawn.shows && drawn.is_eraser),
];

#[derive(Default)]
pub struct SlantCoverage {
    /// By the way it lies, the code, and what is met.
    characters: [[[u64; MET.len()]; CODES.len()]; WAYS.len()],
    /// With tilt high, by the code and the line type.
    vectors: [[u64; LINE_TYPES]; VECTORS.len()],
}

impl SlantCoverage {
    /// An accepted call: its state, and what it was lent, as it was before.
    pub fn count(&mut self, state: &State, call: &Call, lent: &Memories) {
        let (Call::Grant { n, picture, table }, Work::Steps { code, done }) = (*call, state.work) else {
            return;
        };
        let used = n.min(count::rest(state));
        // Whoever accepts a wrong length is told of elsewhere.
        if used == 0 || (picture, table) != (bytes(state.format), TABLE_BYTES) {
            return;
        }
        if let Some(character) = Character::of(state, code) {
            let drawn = Drawn::of(state, &character, done..done + used, lent);
            let counts = &mut self.characters[way(&character)][code_place(code)];
            counts.iter_mut().zip(MET).for_each(|(n, (_, is_met))| *n += u64::from(is_met(&drawn)));
        } else if let (Some(place), true) = (vector_place(code), state.ctrl2 & TILT != 0) {
            self.vectors[place][usize::from(state.ctrl2) % LINE_TYPES] += 1;
        }
    }

    /// Each row that a whole run must meet, with its count.
    pub fn rows(&self) -> Vec<(String, u64)> {
        let mut rows = Vec::new();
        for (way, of_way) in WAYS.iter().zip(self.characters) {
            for (code, counts) in CODES.iter().zip(of_way) {
                let met = MET.iter().zip(counts);
                rows.extend(met.map(|((met, _), n)| (format!("{code} {way}, {met}"), n)));
            }
        }
        for (codes, counts) in VECTORS.iter().zip(self.vectors) {
            let types = counts.into_iter().enumerate();
            rows.extend(types.map(|(line, n)| (format!("a vector {codes} with tilt, line type {line}"), n)));
        }
        rows
    }
}

/// Its place in WAYS.
fn way(character: &Character) -> usize {
    usize::from(character.is_tilted) + 2 * usize::from(character.is_turned)
}

/// The place of a character's code in CODES.
fn code_place(code: u8) -> usize {
    match code {
        0x0A => 1,
        0x0B => 2,
        _ => 0,
    }
}

/// Its place in VECTORS; None where it is no vector.
fn vector_place(code: u8) -> Option<usize> {
    match code {
        0x10..=0x17 => Some(0),
        0x18..=0x1F => Some(1),
        0x80..=0xFF => Some(2),
        _ => None,
    }
}

/// What some cycles of a character do.
struct Drawn {
    is_ended: bool,
    is_scaled: bool,
    is_cyclic: bool,
    is_eraser: bool,
    /// A place of theirs lies beyond 0 or 4,095 from that of the first.
    steps_around: bool,
    /// All their dots lie in the window.
    is_inside: bool,
    /// Their dots lie on both sides of an edge: that of the window, or of one of those it is repeated in.
    is_parted: bool,
    /// A dot of the picture changes.
    shows: bool,
}

impl Drawn {
    fn of(state: &State, character: &Character, cycles: Range<u16>, lent: &Memories) -> Drawn {
        let is_ended = cycles.len() == usize::from(count::rest(state));
        let first = character.offset(cycles.start);
        let places: Vec<(u16, Place)> =
            cycles.map(|i| (i, place(state, first, character.offset(i)))).collect();
        let dots = places.iter().filter(|(i, _)| character.has_dot(*i, &lent.table));
        let dots: Vec<Place> = dots.map(|(_, at)| stepped_around(*at)).collect();
        let (width, height) = window(state.format);
        let screen = |(x, y): &Place| (x / width, y / height);
        Drawn {
            is_ended,
            is_scaled: character.p != 1 && character.q != 1,
            is_cyclic: state.ctrl1 & CYCLIC != 0,
            is_eraser: state.ctrl1 & PEN == 0,
            steps_around: places.iter().any(|(_, at)| *at != stepped_around(*at)),
            is_inside: dots.iter().all(|dot| screen(dot) == (0, 0)),
            is_parted: dots.windows(2).any(|two| screen(&two[0]) != screen(&two[1])),
            shows: state.ctrl1 & DOWN != 0 && dots.iter().any(|dot| changes(state, *dot, &lent.picture)),
        }
    }
}

/// Where the cycle of an offset falls, X and Y being on that of the first; not yet taken modulo 4,096.
fn place(state: &State, first: Place, offset: Place) -> Place {
    (i32::from(state.x) + offset.0 - first.0, i32::from(state.y) + offset.1 - first.1)
}

/// A dot of the picture is not yet as it will be written.
fn changes(state: &State, dot: Place, picture: &[u8]) -> bool {
    let lights = state.ctrl1 & PEN != 0;
    written(state.format, state.ctrl1, dot).is_some_and(|(byte, bit)| (picture[byte] & bit != 0) != lights)
}
