//! Flat values that stand for no state, as a number in them names nothing: each planted by itself; and bytes at random.

use super::count;
use super::states::{good, registers, settled};
use crate::convert::flattened;
use crate::flat::{self, Flat};
use crate::random::Random;
use second::{State, Work};

type Planted = fn(&mut Random) -> Flat;

pub const CAUSES: [(&str, Planted); 7] = [
    ("format number 3", |random| with_format(random, 3)),
    ("format number 4", |random| with_format(random, 4)),
    ("format number 5", |random| with_format(random, 5)),
    ("format number 6", |random| with_format(random, 6)),
    ("format number 7", |random| with_format(random, 7)),
    ("work number 3", with_work_3),
    ("pen number 3", with_pen_3),
];

fn with_format(random: &mut Random, number: u8) -> Flat {
    let state = flattened(&good(random));
    Flat { modes: state.modes & !flat::FORMAT | number, ..state }
}

fn with_work_3(random: &mut Random) -> Flat {
    let state = flattened(&good(random));
    Flat { modes: state.modes | flat::WORK, ..state }
}

fn with_pen_3(random: &mut Random) -> Flat {
    let state = flattened(&good(random));
    Flat { signals: state.signals | flat::PEN, ..state }
}

/// Any sixteen bytes; half of them tamed so that more than the first test is reached.
pub fn bytes(random: &mut Random) -> Flat {
    let mut state = any(random);
    if random.flag() {
        state.x &= 0x0FFF;
        state.y &= 0x0FFF;
        state.ctrl1 &= 0x7F;
        state.ctrl2 &= 0x0F;
        state.xlp &= 0xFD;
        let named = random.below(3) as u8 | random.pick(&[flat::IDLE, flat::STEPS, flat::CLEAR]);
        state.modes = state.modes & !(flat::FORMAT | flat::WORK) | named;
        let pen = random.pick(&[flat::PEN_OFF, flat::PEN_WAITING, flat::PEN_OPEN]);
        state.signals = state.signals & !flat::PEN | pen;
    }
    state
}

fn any(random: &mut Random) -> Flat {
    Flat {
        x: random.word(),
        y: random.word(),
        done: random.word(),
        ctrl1: random.byte(),
        ctrl2: random.byte(),
        csize: random.byte(),
        deltax: random.byte(),
        deltay: random.byte(),
        xlp: random.byte(),
        ylp: random.byte(),
        code: random.byte(),
        modes: random.byte(),
        signals: random.byte(),
    }
}

/// A good state with one bit turned over: mostly good still, or impossible, or no state, or something left over.
pub fn one_bit_off(random: &mut Random) -> Flat {
    let mut state = flattened(&good(random));
    let bit = random.below(8) as u8;
    match random.below(16) {
        0 | 1 => state.x ^= 1 << random.below(16),
        2 | 3 => state.y ^= 1 << random.below(16),
        4 | 5 => state.done ^= 1 << random.below(16),
        6 => state.ctrl1 ^= 1 << bit,
        7 => state.ctrl2 ^= 1 << bit,
        8 => state.csize ^= 1 << bit,
        9 => state.deltax ^= 1 << bit,
        10 => state.deltay ^= 1 << bit,
        11 => state.xlp ^= 1 << bit,
        12 => state.ylp ^= 1 << bit,
        13 => state.code ^= 1 << bit,
        14 => state.modes ^= 1 << bit,
        _ => state.signals ^= 1 << bit,
    }
    state
}

/// The progress at, just below or just above the count, whatever runs.
pub fn around_the_count(random: &mut Random) -> Flat {
    let code = random.byte();
    let registers = registers(random);
    let around = count::cycles(&registers, code).unwrap_or(1) + random.among(0, 2) - 1;
    flattened(&settled(State { work: Work::Steps { code, done: around }, ..registers }))
}
