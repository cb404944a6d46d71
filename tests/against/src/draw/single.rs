//! Single calls: a state drawn by itself, and what is known of it before either card is asked.

use super::arguments::{self, WrongLengths};
use super::{impossible, left_over, letter, no_state, states};
use crate::call::Call;
use crate::convert::{flattened, state_of};
use crate::flat::Flat;
use crate::random::Random;
use second::{fresh, Format, State, Work};

/// Of a hundred single calls, those that grant cycles to a character in sight: else too few of those drawn leave a dot.
const LETTERS: u64 = 4;

/// What is known of a call before: of its state, what refusal number 1 has to do with it.
#[derive(Clone, Copy, PartialEq, Eq, Debug)]
pub enum Known {
    Good,
    /// Good, with a left-over of the kind at this place of `left_over::KINDS`.
    LeftOver(usize),
    /// Refused 1 for the cause at this place of `causes`.
    Refused(usize),
    /// No state: a PBM read from a file with the damage at this place of `damage::DAMAGES`.
    File(usize),
    Nothing,
}

/// Every cause of refusal 1 by name: those of impossible states, then those of flat values that are none.
pub fn causes() -> impl Iterator<Item = &'static str> {
    let impossible = impossible::CAUSES.iter().map(|(name, _)| *name);
    impossible.chain(no_state::CAUSES.iter().map(|(name, _)| *name))
}

/// A state and a call on it.
pub fn drawn(random: &mut Random) -> (Flat, Known, Call) {
    if random.percent(LETTERS) {
        let (state, call) = letter::granted(random);
        return (flattened(&state), Known::Good, call);
    }
    let (state, known) = state(random);
    let call = call(random, &state);
    (state, known, call)
}

fn state(random: &mut Random) -> (Flat, Known) {
    match random.below(20) {
        0..=4 => (flattened(&states::good(random)), Known::Good),
        5..=9 => with_left_over(random),
        10..=15 => refused(random),
        16 => (no_state::one_bit_off(random), Known::Nothing),
        17 | 18 => (no_state::around_the_count(random), Known::Nothing),
        _ => (no_state::bytes(random), Known::Nothing),
    }
}

fn with_left_over(random: &mut Random) -> (Flat, Known) {
    let kind = random.below(left_over::KINDS.len() as u64) as usize;
    (left_over::planted(random, kind).1, Known::LeftOver(kind))
}

/// A cause of refusal 1 by itself, or half the time beside left-overs.
fn refused(random: &mut Random) -> (Flat, Known) {
    let count = impossible::CAUSES.len() + no_state::CAUSES.len();
    let cause = random.below(count as u64) as usize;
    let flat = match cause.checked_sub(impossible::CAUSES.len()) {
        None => flattened(&impossible::CAUSES[cause].1(random)),
        Some(place) => no_state::CAUSES[place].1(random),
    };
    let flat = if random.flag() { left_over::scattered(random, flat) } else { flat };
    (flat, Known::Refused(cause))
}

/// Any call but a fresh state.
pub fn call(random: &mut Random, flat: &Flat) -> Call {
    let wrong = WrongLengths { percent: 12 };
    let state = nearest(flat);
    match random.below(16) {
        0..=2 => arguments::write(random),
        3 => arguments::command(random),
        4 | 5 => arguments::read(random),
        6 => arguments::grant(random, &state, wrong),
        7..=9 => waited_for(random, &state, wrong),
        10..=12 => arguments::set_vb(random, &state, wrong),
        13 | 14 => arguments::lpck(random),
        _ => Call::Address,
    }
}

/// What makes the state go on.
fn waited_for(random: &mut Random, state: &State, wrong: WrongLengths) -> Call {
    match state.work {
        Work::Idle => arguments::command(random),
        Work::Steps { .. } => arguments::grant(random, state, wrong),
        Work::Clear { .. } => arguments::set_vb(random, state, wrong),
    }
}

/// A state to take lengths and levels from, for a flat value that stands for none.
fn nearest(flat: &Flat) -> State {
    state_of(flat).unwrap_or_else(|| fresh(Format::Ef9366))
}
