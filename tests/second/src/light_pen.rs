//! The light pen sequence: begun by 08 or 09, opened by a VB fall, ended by an LPCK edge or a VB rise.

use crate::answer::Answer;
use crate::refusal::{self, ACCEPTED};
use crate::state::{Pen, State};
use crate::status::pen_end_rises;

/// An edge at segment h and line v; outside the open frame it does nothing.
pub fn lpck(state: &State, h: u16, v: u16) -> Answer {
    let number = refusal::of_lpck(state, h, v);
    if number != ACCEPTED {
        return Answer::refused(number, state);
    }
    let mut next = state.with_frames_that_count();
    if state.pen == Pen::Open {
        // Both fit: h is at most 63 and v at most 255.
        next.xlp = (4 * h + 1) as u8;
        next.ylp = v as u8;
        end(&mut next);
    }
    Answer::accepted(0, next)
}

pub fn frame_begins(state: &mut State) {
    if state.pen == Pen::Waiting {
        state.pen = Pen::Open;
    }
}

/// A frame without an edge loads nothing and ends the sequence all the same.
pub fn frame_ends(state: &mut State) {
    if state.pen == Pen::Open {
        end(state);
    }
}

fn end(state: &mut State) {
    state.pen = Pen::Off;
    pen_end_rises(state);
}
