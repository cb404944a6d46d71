//! The next call of a run, after what the card is doing.

use super::arguments::{self, WrongLengths};
use crate::call::Call;
use crate::random::Random;
use second::{Pen, State, Work};

#[derive(Clone, Copy)]
enum Next {
    Write,
    Command,
    Read,
    Grant,
    SetVb,
    Lpck,
    Address,
}

const SET_UP: [(u64, Next); 7] = [
    (40, Next::Write),
    (30, Next::Command),
    (8, Next::Read),
    (4, Next::Grant),
    (6, Next::SetVb),
    (4, Next::Lpck),
    (2, Next::Address),
];

const STEP: [(u64, Next); 7] = [
    (4, Next::Write),
    (3, Next::Command),
    (8, Next::Read),
    (60, Next::Grant),
    (8, Next::SetVb),
    (5, Next::Lpck),
    (4, Next::Address),
];

const CLEAR: [(u64, Next); 7] = [
    (4, Next::Write),
    (3, Next::Command),
    (8, Next::Read),
    (8, Next::Grant),
    (60, Next::SetVb),
    (8, Next::Lpck),
    (3, Next::Address),
];

/// A pen sequence is under way and nothing runs.
const AIM: [(u64, Next); 7] = [
    (20, Next::Write),
    (15, Next::Command),
    (8, Next::Read),
    (4, Next::Grant),
    (30, Next::SetVb),
    (20, Next::Lpck),
    (2, Next::Address),
];

pub fn next(random: &mut Random, state: &State) -> Call {
    let wrong = WrongLengths { percent: 3 };
    let weights = match (state.work, state.pen) {
        (Work::Steps { .. }, _) => &STEP,
        (Work::Clear { .. }, _) => &CLEAR,
        (Work::Idle, Pen::Off) => &SET_UP,
        (Work::Idle, Pen::Waiting | Pen::Open) => &AIM,
    };
    match random.weighted(weights) {
        Next::Write => arguments::write(random),
        Next::Command => arguments::command(random),
        Next::Read => arguments::read(random),
        Next::Grant => arguments::grant(random, state, wrong),
        Next::SetVb => arguments::set_vb(random, state, wrong),
        Next::Lpck => arguments::lpck(random),
        Next::Address => Call::Address,
    }
}
