//! A smaller case that still differs: memories darkened, lengths put right, files made shorter, numbers made smaller,
//! one after the other for as long as any of it leaves the difference standing.

mod memories;

use crate::call::Call;
use crate::case::Case;
use crate::convert::cleaned;
use crate::flat::{Flat, CLEAR_IS_0C, CLEAR_IS_OPEN, FIRST_FRAME_OVER, FORMAT, PEN, WORK};
use crate::scene::Memories;
use memories::{darken, plainer_files, resized, right_lengths, right_picture, shorten_file, MEMORIES};
use std::cell::Cell;

/// CSIZE as a fresh card has it counts as the smallest: 0 means 16.
const CSIZE: u8 = 0x11;
/// Commands of few cycles.
const ONE_CYCLE: u8 = 0x0F;
const VECTOR: u8 = 0x10;
/// The lowest of the codes that tilt slants.
const BLOCK: u8 = 0x0A;

/// A file of PBM takes milliseconds to read, so what does not get smaller within so many tries stays as it is.
const TRIES: u32 = 3_000;

/// The smallest case found that shows the difference, which the given one does.
pub fn shrunk(mut case: Case, shows: impl Fn(&Case) -> bool) -> Case {
    let tries = Cell::new(TRIES);
    let shows = |candidate: &Case| {
        if candidate.call.lends().file.is_some() {
            tries.set(tries.get().saturating_sub(1));
        }
        tries.get() > 0 && shows(candidate)
    };
    loop {
        let before = weight(&case);
        for candidate in right_lengths(&case).into_iter().chain(plainer_files(&case)) {
            keep_lighter(&mut case, candidate, &shows);
        }
        for leap in LEAPS {
            let candidate = leapt(&case, leap);
            keep_lighter(&mut case, candidate, &shows);
        }
        for memory in MEMORIES {
            darken(&mut case, memory, &shows);
        }
        if matches!(case.call, Call::ReadPbm { .. }) {
            shorten_file(&mut case, &shows);
        }
        for knob in KNOBS {
            turn_down(&mut case, knob, &shows);
        }
        if weight(&case) == before {
            return case;
        }
    }
}

fn keep_lighter(case: &mut Case, candidate: Case, shows: &impl Fn(&Case) -> bool) -> bool {
    let lighter = weight(&candidate) < weight(case) && shows(&candidate);
    if lighter {
        *case = candidate;
    }
    lighter
}

/// Falls with every step that is kept, so that shrinking ends.
fn weight(case: &Case) -> u64 {
    let numbers: u64 = KNOBS.iter().map(|knob| u64::from(knob.weight(case))).sum();
    memories::weight(case) + numbers
}

/// Fields of the state that only change together; left-overs go first.
const LEAPS: [fn(&mut Flat); 8] = [
    |s| *s = cleaned(s).unwrap_or(*s),
    |s| s.modes &= !FORMAT,
    |s| s.signals &= !PEN,
    |s| {
        s.modes &= !(WORK | CLEAR_IS_0C | CLEAR_IS_OPEN | FIRST_FRAME_OVER);
        (s.code, s.done) = (0, 0);
    },
    |s| (s.code, s.done) = (ONE_CYCLE, 0),
    |s| (s.code, s.done) = (VECTOR, 0),
    |s| (s.code, s.done) = (BLOCK, 0),
    |s| (s.done, s.csize) = (0, CSIZE),
];

/// The picture keeps its length where that was wrong, and is of the right length where it was right.
fn leapt(case: &Case, leap: fn(&mut Flat)) -> Case {
    let mut next = case.clone();
    on_state(&mut next, leap);
    if case.call.lends().picture.is_some() && case.lent.picture.len() == right_picture(case) {
        let picture = resized(&case.lent.picture, right_picture(&next));
        let lent = Memories { picture, ..case.lent.clone() };
        return next.lending(lent);
    }
    next
}

/// A number of the case that can be made smaller.
#[derive(Clone, Copy)]
struct Knob {
    get: fn(&Case) -> u16,
    set: fn(&mut Case, u16),
    least: u16,
}

impl Knob {
    fn weight(&self, case: &Case) -> u32 {
        let value = (self.get)(case);
        if value == self.least {
            0
        } else {
            1 + u32::from(value)
        }
    }
}

/// A state of which something was known stays as it is, and so does what stands for one where a call knows none.
fn on_state(case: &mut Case, set: impl FnOnce(&mut Flat)) {
    if case.promise.is_none() && case.call.knows_state() {
        set(&mut case.state);
    }
}

/// A byte of the state.
macro_rules! byte_knob {
    ($field:ident) => {
        Knob {
            get: |case| u16::from(case.state.$field),
            set: |case, value| on_state(case, |s| s.$field = value as u8),
            least: 0,
        }
    };
}

const KNOBS: [Knob; 15] = [
    Knob {
        get: |case| argument(&case.call, 0),
        set: |case, value| set_argument(&mut case.call, 0, value),
        least: 0,
    },
    Knob {
        get: |case| argument(&case.call, 1),
        set: |case, value| set_argument(&mut case.call, 1, value),
        least: 0,
    },
    Knob { get: |case| case.state.done, set: |case, value| on_state(case, |s| s.done = value), least: 0 },
    Knob { get: |case| case.state.x, set: |case, value| on_state(case, |s| s.x = value), least: 0 },
    Knob { get: |case| case.state.y, set: |case, value| on_state(case, |s| s.y = value), least: 0 },
    byte_knob!(ctrl1),
    byte_knob!(ctrl2),
    Knob { least: CSIZE as u16, ..byte_knob!(csize) },
    byte_knob!(deltax),
    byte_knob!(deltay),
    byte_knob!(xlp),
    byte_knob!(ylp),
    byte_knob!(code),
    byte_knob!(modes),
    byte_knob!(signals),
];

/// The least value, a half, one bit less, one less.
fn turn_down(case: &mut Case, knob: Knob, shows: &impl Fn(&Case) -> bool) {
    let mut tried = true;
    while tried {
        tried = false;
        let value = (knob.get)(case);
        let bits = (0..16).rev().map(|bit| value & !(1 << bit));
        let smaller = [knob.least, 1, value / 2].into_iter().chain(bits).chain(value.checked_sub(1));
        for candidate_value in smaller {
            let mut candidate = case.clone();
            (knob.set)(&mut candidate, candidate_value);
            if keep_lighter(case, candidate, shows) {
                tried = true;
                break;
            }
        }
    }
}

/// The numbers of a call besides the lengths it lends.
fn argument(call: &Call, place: usize) -> u16 {
    let both = match *call {
        Call::Fresh { format } => [u16::from(format), 0],
        Call::Write { address, value } => [u16::from(value), u16::from(address)],
        Call::Read { address } => [u16::from(address), 0],
        Call::Grant { n, .. } => [n, 0],
        Call::SetVb { level, .. } => [u16::from(level), 0],
        Call::Lpck { h, v } => [h, v],
        Call::Address => [0, 0],
        Call::WritePbm { format, .. } | Call::ReadPbm { format, .. } => [u16::from(format), 0],
    };
    both[place]
}

/// Never larger than before, so it fits.
fn set_argument(call: &mut Call, place: usize, number: u16) {
    match (call, place) {
        (Call::Fresh { format }, 0) => *format = number as u8,
        (Call::Write { value, .. }, 0) => *value = number as u8,
        (Call::Write { address, .. }, 1) => *address = number as u8,
        (Call::Read { address }, 0) => *address = number as u8,
        (Call::Grant { n, .. }, 0) => *n = number,
        (Call::SetVb { level, .. }, 0) => *level = number as u8,
        (Call::Lpck { h, .. }, 0) => *h = number,
        (Call::WritePbm { format, .. } | Call::ReadPbm { format, .. }, 0) => *format = number as u8,
        (Call::Lpck { v, .. }, 1) => *v = number,
        _ => {}
    }
}
