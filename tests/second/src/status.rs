//! The STATUS byte, and the three signals whose rise may set a flag.

use crate::state::{Pen, State, CTRL1_PEN_END_MASK, CTRL1_READY_MASK, CTRL1_VB_MASK};

pub fn status(state: &State) -> u8 {
    let flags = state.flags;
    let interrupt = flags.pen_end || flags.vb_rise || flags.ready;
    bit(0, state.pen == Pen::Off)
        | bit(1, state.vb)
        | bit(2, !state.busy())
        | bit(3, outside(state))
        | bit(4, flags.pen_end)
        | bit(5, flags.vb_rise)
        | bit(6, flags.ready)
        | bit(7, interrupt)
}

fn bit(place: u8, high: bool) -> u8 {
    u8::from(high) << place
}

/// The OR of the unused upper bits, on a cyclic screen too.
fn outside(state: &State) -> bool {
    state.x >= state.format.width() || state.y >= state.format.height()
}

// The mask is looked at when the signal rises, neither before nor after (readings 32 and 33).

pub fn pen_end_rises(state: &mut State) {
    state.flags.pen_end |= state.ctrl1_has(CTRL1_PEN_END_MASK);
}

pub fn vb_rises(state: &mut State) {
    state.flags.vb_rise |= state.ctrl1_has(CTRL1_VB_MASK);
}

pub fn ready_rises(state: &mut State) {
    state.flags.ready |= state.ctrl1_has(CTRL1_READY_MASK);
}
