//! Good states with something left over where it is not in use: no call looks at it, and an accepted one hands it back
//! as 0.

use super::codes;
use super::states::{clearing, registers, running, settled};
use crate::convert::{flattened, format_of};
use crate::flat::{self, Flat};
use crate::random::Random;
use second::{Format, State};

/// What a state does, which decides what is in use.
#[derive(Clone, Copy, PartialEq, Eq, Debug)]
pub enum Doing {
    Idle,
    Steps,
    Clear,
    /// A clear that has only one frame, so that no first one can be over.
    ClearOn(Format),
}

type Planted = fn(&mut Random, Flat) -> Flat;

pub const KINDS: [(&str, Doing, Planted); 18] = [
    ("idle with a code", Doing::Idle, code),
    ("idle with a progress", Doing::Idle, progress),
    ("idle with 0C set", Doing::Idle, is_0c),
    ("idle with an open frame", Doing::Idle, open_frame),
    ("idle with a first frame over", Doing::Idle, first_frame_over),
    ("idle with bit 0 of signals", Doing::Idle, signals_bit_0),
    ("idle with bit 7 of signals", Doing::Idle, signals_bit_7),
    ("steps with 0C set", Doing::Steps, is_0c),
    ("steps with an open frame", Doing::Steps, open_frame),
    ("steps with a first frame over", Doing::Steps, first_frame_over),
    ("steps with bit 0 of signals", Doing::Steps, signals_bit_0),
    ("steps with bit 7 of signals", Doing::Steps, signals_bit_7),
    ("a clear with a code", Doing::Clear, code),
    ("a clear with a progress", Doing::Clear, progress),
    ("a clear with bit 0 of signals", Doing::Clear, signals_bit_0),
    ("a clear with bit 7 of signals", Doing::Clear, signals_bit_7),
    ("a clear on the EF9366 with a first frame over", Doing::ClearOn(Format::Ef9366), first_frame_over),
    ("a clear on FMAT low with a first frame over", Doing::ClearOn(Format::Ef9365Low), first_frame_over),
];

fn code(random: &mut Random, state: Flat) -> Flat {
    Flat { code: random.among(1, 255) as u8, ..state }
}

fn progress(random: &mut Random, state: Flat) -> Flat {
    let any = random.among(1, 65_535);
    Flat { done: random.pick(&[1, 47, 65_535, any]), ..state }
}

fn is_0c(_: &mut Random, state: Flat) -> Flat {
    Flat { modes: state.modes | flat::CLEAR_IS_0C, ..state }
}

fn open_frame(_: &mut Random, state: Flat) -> Flat {
    Flat { modes: state.modes | flat::CLEAR_IS_OPEN, ..state }
}

fn first_frame_over(_: &mut Random, state: Flat) -> Flat {
    Flat { modes: state.modes | flat::FIRST_FRAME_OVER, ..state }
}

fn signals_bit_0(_: &mut Random, state: Flat) -> Flat {
    Flat { signals: state.signals | flat::SIGNALS_BIT_0, ..state }
}

fn signals_bit_7(_: &mut Random, state: Flat) -> Flat {
    Flat { signals: state.signals | flat::SIGNALS_BIT_7, ..state }
}

/// A good state, and its bytes with the left-over of this place in KINDS: by itself, or half the time beside others.
pub fn planted(random: &mut Random, kind: usize) -> (State, Flat) {
    let (_, doing, plant) = KINDS[kind];
    let state = good(random, doing);
    let flat = plant(random, flattened(&state));
    (state, if random.flag() { scattered(random, flat) } else { flat })
}

fn good(random: &mut Random, doing: Doing) -> State {
    let registers = registers(random);
    match doing {
        Doing::Idle => settled(registers),
        Doing::Steps => {
            let code = codes::stepping(random);
            running(random, registers, code)
        }
        Doing::Clear => clearing(random, registers),
        Doing::ClearOn(format) => clearing(random, State { format, ..registers }),
    }
}

/// The same bytes with left-overs in about half of the places that are not in use; what the state stands for stays.
pub fn scattered(random: &mut Random, state: Flat) -> Flat {
    let fitting = KINDS.iter().filter(|(_, doing, _)| fits(*doing, &state));
    fitting.fold(state, |state, (_, _, plant)| if random.flag() { plant(random, state) } else { state })
}

/// What names no kind of work fits nothing, and what names no format is no clear of one frame.
fn fits(doing: Doing, state: &Flat) -> bool {
    let work = state.modes & flat::WORK;
    match doing {
        Doing::Idle => work == flat::IDLE,
        Doing::Steps => work == flat::STEPS,
        Doing::Clear => work == flat::CLEAR,
        Doing::ClearOn(format) => {
            work == flat::CLEAR && format_of(state.modes & flat::FORMAT) == Some(format)
        }
    }
}
