//! The memories of a case made smaller.

use super::keep_lighter;
use crate::call::{Call, Lengths};
use crate::case::Case;
use crate::convert::format_of;
use crate::draw::arguments::{bytes, file_bytes, TABLE_BYTES};
use crate::draw::pbm;
use crate::draw::states::FORMATS;
use crate::flat::FORMAT;
use crate::scene::Memories;
use second::Format;

/// Dark bytes weigh nothing, and neither does the right length.
pub fn weight(case: &Case) -> u64 {
    let of_one = |memory: &Memory| {
        let (lent, dark) = ((memory.of)(&case.lent), (memory.dark)(case));
        let lit = lent.iter().filter(|byte| **byte != dark).count();
        let length = if lent.len() == (memory.right)(case) { 0 } else { 1 + lent.len() };
        (lit * 0x10_0000 + length) as u64
    };
    MEMORIES.iter().map(of_one).sum()
}

/// One of the memories that a case lends.
#[derive(Clone, Copy)]
pub struct Memory {
    is_lent: fn(&Lengths) -> bool,
    of: fn(&Memories) -> &Vec<u8>,
    of_mut: fn(&mut Memories) -> &mut Vec<u8>,
    /// The length that no call refuses.
    right: fn(&Case) -> usize,
    /// What tells the least.
    dark: fn(&Case) -> u8,
}

pub const MEMORIES: [Memory; 3] = [
    Memory {
        is_lent: |lends| lends.table.is_some(),
        of: |lent| &lent.table,
        of_mut: |lent| &mut lent.table,
        right: |_| TABLE_BYTES,
        dark: |_| 0,
    },
    Memory {
        is_lent: |lends| lends.picture.is_some(),
        of: |lent| &lent.picture,
        of_mut: |lent| &mut lent.picture,
        right: right_picture,
        dark: |_| 0,
    },
    Memory {
        is_lent: |lends| lends.file.is_some(),
        of: |lent| &lent.file,
        of_mut: |lent| &mut lent.file,
        right: right_file,
        dark: dark_of_file,
    },
];

/// The format that a case is about; a number may name none.
fn format(case: &Case) -> Option<Format> {
    match case.call {
        Call::WritePbm { format, .. } | Call::ReadPbm { format, .. } => format_of(format),
        _ => format_of(case.state.modes & FORMAT),
    }
}

pub fn right_picture(case: &Case) -> usize {
    format(case).map_or(0, bytes)
}

/// A buffer as long as the file; a file that is read is the shorter the better.
fn right_file(case: &Case) -> usize {
    match case.call {
        Call::WritePbm { .. } => format(case).map_or(0, file_bytes),
        _ => 0,
    }
}

/// In a file that is read, a dot that is not lit.
fn dark_of_file(case: &Case) -> u8 {
    match case.call {
        Call::ReadPbm { .. } => b'0',
        _ => 0,
    }
}

fn with(case: &Case, memory: &Memory, bytes: Vec<u8>) -> Case {
    let mut lent = case.lent.clone();
    *(memory.of_mut)(&mut lent) = bytes;
    case.clone().lending(lent)
}

pub fn resized(memory: &[u8], length: usize) -> Vec<u8> {
    let mut memory = memory.to_vec();
    memory.resize(length, 0);
    memory
}

/// Each memory lent of the length that no call refuses, or of none.
pub fn right_lengths(case: &Case) -> Vec<Case> {
    let lends = case.call.lends();
    let lent = MEMORIES.iter().filter(|memory| (memory.is_lent)(&lends));
    let lengths = lent.flat_map(|memory| [(memory, (memory.right)(case)), (memory, 0)]);
    lengths.map(|(memory, length)| with(case, memory, resized((memory.of)(&case.lent), length))).collect()
}

/// The same call on a dark picture's file, and on one of the first format; the file without what parts its dots.
pub fn plainer_files(case: &Case) -> Vec<Case> {
    let lending = |call: Call, format: Format, file: Vec<u8>| {
        let lent =
            Memories { picture: resized(&case.lent.picture, bytes(format)), file, ..case.lent.clone() };
        Case { call, ..case.clone() }.lending(lent)
    };
    let dark = |format| pbm::file(format, &vec![0; bytes(format)]);
    let first = FORMATS[0];
    match (case.call, format(case)) {
        (Call::WritePbm { .. }, _) => {
            let call = Call::WritePbm { format: 0, picture: 0, buffer: 0 };
            vec![lending(call, first, vec![0; file_bytes(first)])]
        }
        (Call::ReadPbm { .. }, Some(present)) => {
            let call = Call::ReadPbm { format: 0, file: 0, picture: 0 };
            let packed = with(case, &MEMORIES[2], packed(&case.lent.file));
            vec![lending(call, first, dark(first)), lending(case.call, present, dark(present)), packed]
        }
        _ => Vec::new(),
    }
}

/// White space between two dots left out.
fn packed(file: &[u8]) -> Vec<u8> {
    let is_dot = |place: usize| file.get(place).is_some_and(|byte| matches!(byte, b'0' | b'1'));
    let stays = |place: usize| file[place] != b'\n' || place == 0 || !is_dot(place - 1) || !is_dot(place + 1);
    (0..file.len()).filter(|place| stays(*place)).map(|place| file[place]).collect()
}

/// Ever smaller parts of a memory made dark: the halves first, single bytes last.
pub fn darken(case: &mut Case, memory: Memory, shows: &impl Fn(&Case) -> bool) {
    let dark = (memory.dark)(case);
    let length = (memory.of)(&case.lent).len();
    let mut part = length;
    while part > 0 {
        for start in (0..length).step_by(part) {
            let end = (start + part).min(length);
            if (memory.of)(&case.lent)[start..end].iter().any(|byte| *byte != dark) {
                let mut candidate = case.clone();
                (memory.of_mut)(&mut candidate.lent)[start..end].fill(dark);
                keep_lighter(case, candidate, shows);
            }
        }
        part /= 2;
    }
}

/// Ever smaller parts of a file left out. Dark dots only go as a whole, from the end: they are told in a word.
pub fn shorten_file(case: &mut Case, shows: &impl Fn(&Case) -> bool) {
    let file = MEMORIES[2];
    let mut part = case.lent.file.len();
    while part > 0 {
        let mut end = case.lent.file.len();
        while end > 0 {
            let start = end.saturating_sub(part);
            let cut = end == case.lent.file.len();
            if cut || case.lent.file[start..end].iter().any(|byte| *byte != b'0') {
                let mut rest = case.lent.file.clone();
                rest.drain(start..end);
                let candidate = with(case, &file, rest);
                keep_lighter(case, candidate, shows);
            }
            end = start;
        }
        part /= 2;
    }
}
