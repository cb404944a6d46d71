//! The model's state as a flat one and back.

use crate::draw::count;
use crate::flat::{self, Flat};
use second::{ClearKind, Flags, Format, Pen, State, Work};

/// 04, 06 and 07 end alike once accepted, so the flat form only tells 0C from them.
pub fn flattened(state: &State) -> Flat {
    let (code, done, work) = work_fields(&state.work);
    Flat {
        x: state.x,
        y: state.y,
        done,
        ctrl1: state.ctrl1,
        ctrl2: state.ctrl2,
        csize: state.csize,
        deltax: state.deltax,
        deltay: state.deltay,
        xlp: state.xlp,
        ylp: state.ylp,
        code,
        modes: format_number(state.format) | work,
        signals: signals(state) | pen_bits(state.pen),
    }
}

/// None when a number names no format, no kind of work or no pen sequence. What is not in use is not looked at, but for
/// the mark of a first frame: of a clear that has only one, the model itself must know that it means nothing.
pub fn state_of(flat: &Flat) -> Option<State> {
    Some(State {
        format: format_of(flat.modes & flat::FORMAT)?,
        ctrl1: flat.ctrl1,
        ctrl2: flat.ctrl2,
        csize: flat.csize,
        deltax: flat.deltax,
        deltay: flat.deltay,
        x: flat.x,
        y: flat.y,
        xlp: flat.xlp,
        ylp: flat.ylp,
        work: work_of(flat)?,
        pen: pen_of(flat.signals & flat::PEN)?,
        vb: flat.signals & flat::VB != 0,
        flags: Flags {
            pen_end: flat.signals & flat::PEN_FLAG != 0,
            vb_rise: flat.signals & flat::VB_FLAG != 0,
            ready: flat.signals & flat::READY_FLAG != 0,
        },
    })
}

/// The same bytes with 0 in every place that is not in use; None where they stand for no state.
pub fn cleaned(flat: &Flat) -> Option<Flat> {
    let state = state_of(flat)?;
    let mut clean = flattened(&state);
    if count::frames(state.format) == 1 {
        clean.modes &= !flat::FIRST_FRAME_OVER;
    }
    Some(clean)
}

/// Something stands in a place that is not in use.
pub fn has_left_overs(flat: &Flat) -> bool {
    cleaned(flat).is_some_and(|clean| clean != *flat)
}

pub fn format_of(number: u8) -> Option<Format> {
    match number {
        0 => Some(Format::Ef9366),
        1 => Some(Format::Ef9365High),
        2 => Some(Format::Ef9365Low),
        _ => None,
    }
}

pub fn format_number(format: Format) -> u8 {
    match format {
        Format::Ef9366 => 0,
        Format::Ef9365High => 1,
        Format::Ef9365Low => 2,
    }
}

/// Code, progress, and the bits of `modes`.
fn work_fields(work: &Work) -> (u8, u16, u8) {
    match *work {
        Work::Idle => (0, 0, flat::IDLE),
        Work::Steps { code, done } => (code, done, flat::STEPS),
        Work::Clear { kind, open, frames_done } => {
            let kind = bit(kind == ClearKind::Fill, flat::CLEAR_IS_0C);
            let frame = bit(open, flat::CLEAR_IS_OPEN) | bit(frames_done > 0, flat::FIRST_FRAME_OVER);
            (0, 0, flat::CLEAR | kind | frame)
        }
    }
}

fn work_of(flat: &Flat) -> Option<Work> {
    match flat.modes & flat::WORK {
        flat::IDLE => Some(Work::Idle),
        flat::STEPS => Some(Work::Steps { code: flat.code, done: flat.done }),
        flat::CLEAR => Some(Work::Clear {
            kind: if flat.modes & flat::CLEAR_IS_0C != 0 { ClearKind::Fill } else { ClearKind::Screen },
            open: flat.modes & flat::CLEAR_IS_OPEN != 0,
            frames_done: u8::from(flat.modes & flat::FIRST_FRAME_OVER != 0),
        }),
        _ => None,
    }
}

fn pen_bits(pen: Pen) -> u8 {
    match pen {
        Pen::Off => flat::PEN_OFF,
        Pen::Waiting => flat::PEN_WAITING,
        Pen::Open => flat::PEN_OPEN,
    }
}

fn pen_of(bits: u8) -> Option<Pen> {
    match bits {
        flat::PEN_OFF => Some(Pen::Off),
        flat::PEN_WAITING => Some(Pen::Waiting),
        flat::PEN_OPEN => Some(Pen::Open),
        _ => None,
    }
}

fn signals(state: &State) -> u8 {
    bit(state.vb, flat::VB)
        | bit(state.flags.pen_end, flat::PEN_FLAG)
        | bit(state.flags.vb_rise, flat::VB_FLAG)
        | bit(state.flags.ready, flat::READY_FLAG)
}

fn bit(high: bool, bit: u8) -> u8 {
    if high {
        bit
    } else {
        0
    }
}
