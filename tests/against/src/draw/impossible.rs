//! The causes of refusal 1, each planted by itself in a state that is good otherwise.

use super::codes::{self, Class};
use super::count;
use super::states::{good, registers, running, settled, FORMATS};
use crate::random::Random;
use second::{ClearKind, Format, Pen, State, Work};

type Planted = fn(&mut Random) -> State;

pub const CAUSES: [(&str, Planted); 30] = [
    ("X above 4095", |random| State { x: random.among(4096, 65_535), ..good(random) }),
    ("Y above 4095", |random| State { y: random.among(4096, 65_535), ..good(random) }),
    ("CTRL1 above 127", |random| with_ctrl1(good(random), 0x80)),
    ("CTRL2 above 15", |random| with_ctrl2(random.among(1, 15) as u8, good(random))),
    ("bit 1 of XLP high", |random| with_xlp(good(random), 0b10)),
    ("00 running", |random| stepless(random, 0x00)),
    ("01 running", |random| stepless(random, 0x01)),
    ("02 running", |random| stepless(random, 0x02)),
    ("03 running", |random| stepless(random, 0x03)),
    ("05 running", |random| stepless(random, 0x05)),
    ("08 running", |random| stepless(random, 0x08)),
    ("09 running", |random| stepless(random, 0x09)),
    ("0D running", |random| stepless(random, 0x0D)),
    ("0E running", |random| stepless(random, 0x0E)),
    ("04 running by steps", |random| stepless(random, 0x04)),
    ("06 running by steps", |random| stepless(random, 0x06)),
    ("07 running by steps", |random| stepless(random, 0x07)),
    ("0C running by steps", |random| stepless(random, 0x0C)),
    ("progress at the count of a vector", |random| at_count(random, vector)),
    ("progress above the count of a vector", |random| above_count(random, vector)),
    ("progress at the count of a character", |random| at_count(random, character)),
    ("progress above the count of a character", |random| above_count(random, character)),
    ("progress at the count of a block", |random| at_count(random, block)),
    ("progress above the count of a block", |random| above_count(random, block)),
    ("progress at the count of 0F", |random| at_count(random, |_| 0x0F)),
    ("progress above the count of 0F", |random| above_count(random, |_| 0x0F)),
    ("VB high in the one frame of a clear", |random| vb_high_in_clear(random, 1, 0)),
    ("VB high in the first frame of two of a clear", |random| vb_high_in_clear(random, 2, 0)),
    ("VB high in the second frame of two of a clear", |random| vb_high_in_clear(random, 2, 1)),
    ("VB high in the open frame of the pen", vb_high_in_pen_frame),
];

fn with_ctrl1(state: State, bits: u8) -> State {
    State { ctrl1: state.ctrl1 | bits, ..state }
}

fn with_ctrl2(upper: u8, state: State) -> State {
    State { ctrl2: state.ctrl2 | upper << 4, ..state }
}

fn with_xlp(state: State, bit: u8) -> State {
    State { xlp: state.xlp | bit, ..state }
}

/// A code that has no cycle count, marked as running.
fn stepless(random: &mut Random, code: u8) -> State {
    let done = random.pick(&[0, 0, 1, 47, 65_535]);
    settled(State { work: Work::Steps { code, done }, ..registers(random) })
}

fn vector(random: &mut Random) -> u8 {
    let class = random.pick(&[Class::LongVector, Class::ShortVector]);
    codes::in_class(random, class)
}

fn character(random: &mut Random) -> u8 {
    codes::in_class(random, Class::Character)
}

fn block(random: &mut Random) -> u8 {
    codes::in_class(random, Class::Block)
}

fn at_count(random: &mut Random, code: fn(&mut Random) -> u8) -> State {
    with_progress(random, code, |_, count| count)
}

fn above_count(random: &mut Random, code: fn(&mut Random) -> u8) -> State {
    with_progress(random, code, |random, count| match random.below(3) {
        0 => count + 1,
        1 => 65_535,
        _ => random.among(count + 1, 65_535),
    })
}

fn with_progress(
    random: &mut Random,
    code: fn(&mut Random) -> u8,
    progress: fn(&mut Random, u16) -> u16,
) -> State {
    let code = code(random);
    let registers = registers(random);
    let state = running(random, registers, code);
    let count = count::cycles(&state, code).expect("a command that uses write cycles");
    State { work: Work::Steps { code, done: progress(random, count) }, ..state }
}

fn vb_high_in_clear(random: &mut Random, frames: u8, frames_done: u8) -> State {
    let formats: Vec<Format> =
        FORMATS.into_iter().filter(|format| count::frames(*format) == frames).collect();
    let kind = random.pick(&[ClearKind::Screen, ClearKind::Fill]);
    let work = Work::Clear { kind, open: true, frames_done };
    let pen = random.pick(&[Pen::Off, Pen::Waiting]);
    State { format: random.pick(&formats), work, pen, vb: true, ..registers(random) }
}

fn vb_high_in_pen_frame(random: &mut Random) -> State {
    let mut state = good(random);
    if let Work::Clear { open, .. } = &mut state.work {
        *open = false;
    }
    State { pen: Pen::Open, vb: true, ..state }
}
