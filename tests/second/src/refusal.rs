//! The refusal numbers, and for each call those that can apply to it.

use crate::format::Format;
use crate::pbm_in::PbmFile;
use crate::pbm_out::file_bytes;
use crate::position::POSITIONS;
use crate::register::{XLP, YLP};
use crate::state::{Pen, State, Work};
use crate::stepping::Stepping;

pub const ACCEPTED: u8 = 0;
pub const BAD_STATE: u8 = 1;
pub const PICTURE_LENGTH: u8 = 2;
pub const TABLE_LENGTH: u8 = 3;
pub const NO_REGISTER: u8 = 4;
pub const READ_ONLY: u8 = 5;
pub const BUSY: u8 = 6;
// 7 was a tilted character; request c plots it, and the number is free since.
pub const PEN_RANGE: u8 = 8;
pub const BUFFER_SHORT: u8 = 9;
pub const NO_HEAD: u8 = 10;
pub const OTHER_SIZE: u8 = 11;
pub const BAD_DOTS: u8 = 12;

/// 96 glyphs of five bytes.
pub const TABLE_BYTES: usize = 480;

pub fn of_write(state: &State, address: u8) -> u8 {
    let read_only = address == XLP || address == YLP;
    lowest(&[
        (bad_state(state), BAD_STATE),
        (no_register(address), NO_REGISTER),
        (read_only, READ_ONLY),
        (!no_register(address) && !read_only && state.busy(), BUSY),
    ])
}

pub fn of_read(state: &State, address: u8) -> u8 {
    lowest(&[(bad_state(state), BAD_STATE), (no_register(address), NO_REGISTER)])
}

/// The lengths are asked for even when no dot would be written (readings 13 and 14).
pub fn of_cycles(state: &State, picture: &[u8], table: &[u8]) -> u8 {
    lowest(&[
        (bad_state(state), BAD_STATE),
        (wrong_picture(state.format, picture), PICTURE_LENGTH),
        (table.len() != TABLE_BYTES, TABLE_LENGTH),
    ])
}

pub fn of_set_vb(state: &State, picture: &[u8]) -> u8 {
    lowest(&[(bad_state(state), BAD_STATE), (wrong_picture(state.format, picture), PICTURE_LENGTH)])
}

pub fn of_lpck(state: &State, h: u16, v: u16) -> u8 {
    lowest(&[(bad_state(state), BAD_STATE), (h > 63 || v > 255, PEN_RANGE)])
}

pub fn of_address(state: &State) -> u8 {
    lowest(&[(bad_state(state), BAD_STATE)])
}

/// Exactly enough is not short (reading a.20).
pub fn of_pbm_write(format: Format, picture: &[u8], buffer: &[u8]) -> u8 {
    lowest(&[
        (wrong_picture(format, picture), PICTURE_LENGTH),
        (buffer.len() < file_bytes(format), BUFFER_SHORT),
    ])
}

/// Without two numbers there is no size to differ and no dot to look for (reading a.12).
pub fn of_pbm_read(format: Format, file: Option<&PbmFile>, picture: &[u8]) -> u8 {
    lowest(&[
        (wrong_picture(format, picture), PICTURE_LENGTH),
        (file.is_none(), NO_HEAD),
        (file.is_some_and(|file| !file.has_size_of(format)), OTHER_SIZE),
        (file.is_some_and(|file| file.dots(format).is_none()), BAD_DOTS),
    ])
}

fn lowest(rows: &[(bool, u8)]) -> u8 {
    rows.iter().filter(|(applies, _)| *applies).map(|(_, number)| *number).min().unwrap_or(ACCEPTED)
}

fn no_register(address: u8) -> bool {
    matches!(address, 0x4 | 0x6 | 0xE | 0xF) || address > 15
}

fn wrong_picture(format: Format, picture: &[u8]) -> bool {
    picture.len() != format.bytes()
}

fn bad_state(state: &State) -> bool {
    state.x >= POSITIONS
        || state.y >= POSITIONS
        || state.ctrl1 > 127
        || state.ctrl2 > 15
        || state.xlp & 0b10 != 0
        || impossible_work(state)
        || vb_high_in_open_frame(state)
}

/// Cycle counts follow from the present registers: none can be written while a command runs (reading 8).
fn impossible_work(state: &State) -> bool {
    let Work::Steps { code, done } = state.work else {
        return false;
    };
    match Stepping::of(state, code) {
        // Either the command takes no time, or it is a clear, and a clear has no progress.
        None => true,
        Some(command) => done >= command.count(),
    }
}

fn vb_high_in_open_frame(state: &State) -> bool {
    let clear_open = matches!(state.work, Work::Clear { open: true, .. });
    state.vb && (clear_open || state.pen == Pen::Open)
}
