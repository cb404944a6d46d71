//! Good states: any that an accepted call can be made from.

use super::{codes, count};
use crate::random::Random;
use second::{ClearKind, Flags, Format, Pen, State, Work};

pub const FORMATS: [Format; 3] = [Format::Ef9366, Format::Ef9365High, Format::Ef9365Low];

pub fn good(random: &mut Random) -> State {
    let registers = registers(random);
    match random.below(9) {
        0 | 1 => settled(registers),
        2 | 3 => {
            // FMAT high twice: there a clear has twice as many moments.
            let [first, second, third] = FORMATS;
            let format = random.pick(&[first, second, second, third]);
            clearing(random, State { format, ..registers })
        }
        _ => {
            let code = codes::stepping(random);
            running(random, registers, code)
        }
    }
}

/// A good state in which the command runs, at any progress.
pub fn running(random: &mut Random, mut state: State, code: u8) -> State {
    let count = count::cycles(&state, code).expect("a command that uses write cycles");
    let done = match random.below(4) {
        0 => 0,
        1 => count - 1,
        _ => random.among(0, count - 1),
    };
    state.work = Work::Steps { code, done };
    settled(state)
}

/// A good state in which a clear waits for one of its frames or is in it. 04, 06 and 07 end alike.
pub fn clearing(random: &mut Random, mut state: State) -> State {
    state.work = Work::Clear {
        kind: random.pick(&[ClearKind::Screen, ClearKind::Fill]),
        open: random.flag(),
        frames_done: random.below(u64::from(count::frames(state.format))) as u8,
    };
    settled(state)
}

/// VB is low inside an open frame.
pub fn settled(mut state: State) -> State {
    let clear_open = matches!(state.work, Work::Clear { open: true, .. });
    state.vb &= !clear_open && state.pen != Pen::Open;
    state
}

/// Idle, though VB and the pen may not fit together yet.
pub fn registers(random: &mut Random) -> State {
    State {
        format: random.pick(&FORMATS),
        ctrl1: ctrl1(random),
        ctrl2: random.byte() & 0x0F,
        csize: csize(random),
        deltax: delta(random),
        deltay: delta(random),
        x: position(random),
        y: position(random),
        xlp: random.byte() & 0xFD,
        ylp: random.byte(),
        work: Work::Idle,
        pen: random.pick(&[Pen::Off, Pen::Waiting, Pen::Open]),
        vb: random.flag(),
        flags: Flags { pen_end: random.flag(), vb_rise: random.flag(), ready: random.flag() },
    }
}

/// Down more often than up, or little would be drawn.
pub fn ctrl1(random: &mut Random) -> u8 {
    let down = if random.percent(60) { 1 } else { 0 };
    random.byte() & 0x7F | down
}

/// Small sizes most often: a character at 00 takes 12,288 cycles.
pub fn csize(random: &mut Random) -> u8 {
    match random.below(16) {
        0 => 0x00,
        1 | 2 => random.byte(),
        3 => random.pick(&[0x01, 0x10, 0x0F, 0xF0, 0x1F, 0xF1]),
        4..=8 => (random.among(1, 4) << 4 | random.among(1, 4)) as u8,
        _ => random.pick(&[0x11, 0x12, 0x21, 0x22]),
    }
}

pub fn delta(random: &mut Random) -> u8 {
    match random.below(4) {
        0 => random.pick(&[0, 1, 254, 255]),
        1 => random.byte(),
        _ => random.among(0, 15) as u8,
    }
}

/// Positions close to an edge of some window, or of the 12 bits, come up often.
pub fn position(random: &mut Random) -> u16 {
    let around = random.pick(&[0, 128, 256, 512, 2048, 4096]);
    near(random, around, &[4, 40, 200, 2048])
}

/// No further away than one of the spreads.
pub fn near(random: &mut Random, around: u16, spreads: &[u16]) -> u16 {
    let spread = random.pick(spreads);
    (around + 4096 + random.among(0, 2 * spread) - spread) % 4096
}
