//! What an accepted command changes at once, and the work it leaves.

use crate::state::{ClearKind, Pen, State, Work, CTRL1_DOWN, CTRL1_PEN, FRESH_CSIZE};
use crate::status::ready_rises;

/// The command is known to be allowed: no other runs.
pub fn accepted(state: &State, code: u8) -> State {
    let mut next = *state;
    change_at_once(&mut next, code);
    next.work = work_begun(code);
    if next.work == Work::Idle {
        // Ready fell and rises again within the call.
        ready_rises(&mut next);
    }
    next
}

fn change_at_once(state: &mut State, code: u8) {
    match code {
        0x00 => state.ctrl1 |= CTRL1_PEN,
        0x01 => state.ctrl1 &= !CTRL1_PEN,
        0x02 => state.ctrl1 |= CTRL1_DOWN,
        0x03 => state.ctrl1 &= !CTRL1_DOWN,
        0x05 | 0x06 => {
            state.x = 0;
            state.y = 0;
        }
        0x07 => reset_registers(state),
        // A second one starts afresh, even from an open frame.
        0x08 | 0x09 => state.pen = Pen::Waiting,
        0x0D => state.x = 0,
        0x0E => state.y = 0,
        _ => {}
    }
}

/// XLP and YLP stay, and so do VB, the flags and a pen sequence (reading 47).
fn reset_registers(state: &mut State) {
    state.ctrl1 = 0;
    state.ctrl2 = 0;
    state.csize = FRESH_CSIZE;
    state.deltax = 0;
    state.deltay = 0;
    state.x = 0;
    state.y = 0;
}

fn work_begun(code: u8) -> Work {
    match code {
        0x00..=0x03 | 0x05 | 0x08 | 0x09 | 0x0D | 0x0E => Work::Idle,
        0x04 => waiting(ClearKind::Screen),
        0x06 => waiting(ClearKind::ScreenAndPosition),
        0x07 => waiting(ClearKind::ScreenAndRegisters),
        0x0C => waiting(ClearKind::Fill),
        0x0A | 0x0B | 0x0F | 0x10..=0xFF => Work::Steps { code, done: 0 },
    }
}

/// A frame already under way does not count (reading b.1): only a later VB fall opens one.
fn waiting(kind: ClearKind) -> Work {
    Work::Clear { kind, open: false, frames_done: 0 }
}
