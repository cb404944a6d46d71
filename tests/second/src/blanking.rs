//! VB: a fall begins a frame, the rise ends it.

use crate::answer::Answer;
use crate::light_pen;
use crate::picture::fill;
use crate::refusal::{self, ACCEPTED};
use crate::state::{ClearKind, State, Work, CTRL1_PEN};
use crate::status::{ready_rises, vb_rises};

/// The present level changes nothing, yet state and picture are looked at all the same (reading 24).
pub fn set_vb(state: &State, level: bool, picture: &mut [u8]) -> Answer {
    let number = refusal::of_set_vb(state, picture);
    if number != ACCEPTED {
        return Answer::refused(number, state);
    }
    let mut next = state.with_frames_that_count();
    if level != state.vb {
        next.vb = level;
        if level {
            frame_ends(&mut next, picture);
        } else {
            frame_begins(&mut next);
        }
    }
    Answer::accepted(0, next)
}

fn frame_begins(state: &mut State) {
    if let Work::Clear { kind, frames_done, .. } = state.work {
        state.work = Work::Clear { kind, open: true, frames_done };
    }
    light_pen::frame_begins(state);
}

fn frame_ends(state: &mut State, picture: &mut [u8]) {
    vb_rises(state);
    if let Work::Clear { kind, open: true, frames_done } = state.work {
        clear_frame_ends(state, kind, frames_done + 1, picture);
    }
    light_pen::frame_ends(state);
}

/// The picture is left alone until the last frame is over, and then changes whole (reading b.2).
fn clear_frame_ends(state: &mut State, kind: ClearKind, frames_done: u8, picture: &mut [u8]) {
    if frames_done < state.format.frames() {
        state.work = Work::Clear { kind, open: false, frames_done };
    } else {
        fill(picture, lit_by(kind, state));
        state.work = Work::Idle;
        ready_rises(state);
    }
}

/// Only 0C looks at CTRL1 bit 1, and none at bit 0.
fn lit_by(kind: ClearKind, state: &State) -> bool {
    match kind {
        ClearKind::Screen | ClearKind::ScreenAndPosition | ClearKind::ScreenAndRegisters => false,
        ClearKind::Fill => state.ctrl1_has(CTRL1_PEN),
    }
}
