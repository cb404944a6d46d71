//! The register file as the host sees it: sixteen addresses, twelve of them in use.

use crate::answer::Answer;
use crate::command;
use crate::refusal::{self, ACCEPTED};
use crate::state::{State, NO_FLAGS};
use crate::status::status;

/// Reading this address gives STATUS, writing it gives a command.
pub const CMD: u8 = 0x0;
pub const CTRL1: u8 = 0x1;
pub const CTRL2: u8 = 0x2;
pub const CSIZE: u8 = 0x3;
pub const DELTAX: u8 = 0x5;
pub const DELTAY: u8 = 0x7;
pub const X_UPPER: u8 = 0x8;
pub const X_LOWER: u8 = 0x9;
pub const Y_UPPER: u8 = 0xA;
pub const Y_LOWER: u8 = 0xB;
pub const XLP: u8 = 0xC;
pub const YLP: u8 = 0xD;

pub fn write(state: &State, address: u8, value: u8) -> Answer {
    let number = refusal::of_write(state, address);
    if number != ACCEPTED {
        return Answer::refused(number, state);
    }
    if address == CMD {
        return Answer::accepted(0, command::accepted(state, value));
    }
    let mut next = *state;
    match address {
        CTRL1 => next.ctrl1 = value & 0x7F,
        CTRL2 => next.ctrl2 = value & 0x0F,
        CSIZE => next.csize = value,
        DELTAX => next.deltax = value,
        DELTAY => next.deltay = value,
        X_UPPER => next.x = with_upper(state.x, value),
        X_LOWER => next.x = with_lower(state.x, value),
        Y_UPPER => next.y = with_upper(state.y, value),
        Y_LOWER => next.y = with_lower(state.y, value),
        _ => {}
    }
    Answer::accepted(0, next)
}

/// A read is never refused because a command runs; X and Y then show the next place (reading 39).
pub fn read(state: &State, address: u8) -> Answer {
    let number = refusal::of_read(state, address);
    if number != ACCEPTED {
        return Answer::refused(number, state);
    }
    Answer::accepted(u16::from(shown(state, address)), after_reading(state, address))
}

fn shown(state: &State, address: u8) -> u8 {
    match address {
        CMD => status(state),
        CTRL1 => state.ctrl1,
        CTRL2 => state.ctrl2,
        CSIZE => state.csize,
        DELTAX => state.deltax,
        DELTAY => state.deltay,
        X_UPPER => upper(state.x),
        X_LOWER => lower(state.x),
        Y_UPPER => upper(state.y),
        Y_LOWER => lower(state.y),
        XLP => state.xlp,
        YLP => state.ylp,
        _ => 0,
    }
}

/// STATUS forgets its flags once shown; XLP forgets its lowest bit once either pen register is shown.
fn after_reading(state: &State, address: u8) -> State {
    let mut next = state.with_frames_that_count();
    match address {
        CMD => next.flags = NO_FLAGS,
        XLP | YLP => next.xlp &= !1,
        _ => {}
    }
    next
}

/// The low four bits of the byte are the upper four of the position (reading 26).
fn with_upper(position: u16, value: u8) -> u16 {
    u16::from(value & 0x0F) << 8 | position & 0xFF
}

fn with_lower(position: u16, value: u8) -> u16 {
    position & 0xF00 | u16::from(value)
}

fn upper(position: u16) -> u8 {
    (position >> 8) as u8 & 0x0F
}

fn lower(position: u16) -> u8 {
    (position & 0xFF) as u8
}
