//! What a run has covered of the frames of clears: clears given where a first frame is said to be over, each call while a
//! clear waits for one of two frames or is in it, each fall and rise of VB that begins or ends a frame, and clears that a
//! run carried from their command to their end.

use crate::call::{Call, KINDS, KINDS_OF_CARD};
use crate::convert::format_number;
use crate::coverage::{FORMATS, LEVELS};
use crate::draw::count;
use crate::flat::{Flat, FIRST_FRAME_OVER};
use second::{ClearKind, Format, State, Work};

/// Of a clear that has two frames.
const MOMENTS: [&str; 4] = [
    "a clear waits for the first of two frames",
    "a clear is in the first of two frames",
    "a clear waits for the second of two frames",
    "a clear is in the second of two frames",
];
const FRAMES: [&str; 6] = [
    "the one frame on the EF9366",
    "the one frame on the EF9366, a first one said to be over",
    "the one frame on FMAT low",
    "the one frame on FMAT low, a first one said to be over",
    "the first of two frames",
    "the second of two frames",
];
const FILLS: [&str; 3] = ["a clear that darkens", "0C with the pen", "0C with the eraser"];
const CODES: [u8; 4] = [0x04, 0x06, 0x07, 0x0C];

/// The refusal of a write while a command runs.
const BUSY: u8 = 6;
/// CTRL1: the pen, else the eraser.
const PEN: u8 = 1 << 1;

/// By the frame and the fill.
type Edges = [[u64; FILLS.len()]; FRAMES.len()];

#[derive(Default)]
pub struct FrameCoverage {
    /// Given where the mark of a first frame is left over, by the format.
    given: [u64; FORMATS.len()],
    /// By the moment: writes, which are refused there, and any other call accepted.
    calls: [[u64; KINDS_OF_CARD]; MOMENTS.len()],
    falls: Edges,
    /// Only those on a picture that shows whether it is filled.
    rises: Edges,
    /// By the format, the code, and VB at the command.
    carried: [[[u64; 2]; CODES.len()]; FORMATS.len()],
    /// What the present run has begun: the code's place in CODES, and VB at the command.
    begun: Option<(usize, usize)>,
}

impl FrameCoverage {
    /// A call that was not refused with 1: its state, also as bytes, and the picture before it.
    pub fn count(&mut self, flat: &Flat, state: &State, call: &Call, number: u8, picture: &[u8]) {
        if let (true, Call::Write { address: 0, value }, 0) = (is_marked(flat), *call, number) {
            self.given[place(state.format)] += u64::from(CODES.contains(&value));
        }
        let Some(clear) = Clear::of(state) else {
            return;
        };
        if let (Some(moment), 0 | BUSY) = (clear.moment, number) {
            // A grant of no cycles would use none in any case.
            let tells = !matches!(call, Call::Grant { n: 0, .. });
            self.calls[moment][call.kind()] += u64::from(tells);
        }
        if let (Call::SetVb { level, .. }, 0) = (*call, number) {
            self.count_level(&clear, state.vb, level != 0, picture);
        }
    }

    fn count_level(&mut self, clear: &Clear, before: bool, after: bool, picture: &[u8]) {
        let counts = match (before, after) {
            (true, false) => &mut self.falls,
            (false, true) if clear.open && clear.shows_on(picture) => &mut self.rises,
            _ => return,
        };
        counts[clear.frame][clear.fill] += 1;
    }

    /// A run begins.
    pub fn begin_run(&mut self) {
        self.begun = None;
    }

    /// One call of a run, on which both cards agree.
    pub fn follow_run(&mut self, before: &State, call: &Call, after: &State) {
        match (before.work, after.work, *call) {
            (Work::Idle, Work::Clear { .. }, Call::Write { value, .. }) => {
                let code = CODES.iter().position(|code| *code == value);
                self.begun = code.map(|code| (code, usize::from(before.vb)));
            }
            (Work::Clear { .. }, Work::Idle, _) => {
                if let Some((code, vb)) = self.begun.take() {
                    self.carried[place(before.format)][code][vb] += 1;
                }
            }
            _ => {}
        }
    }

    /// Each row that a whole run must meet, with its count.
    pub fn rows(&self) -> Vec<(String, u64)> {
        let given = FORMATS.iter().zip(self.given);
        let mut rows: Vec<(String, u64)> = given
            .map(|(format, n)| (format!("a clear given on the {format}, a first frame said to be over"), n))
            .collect();
        for (moment, counts) in MOMENTS.iter().zip(self.calls) {
            // Fresh is handed no state.
            let calls = KINDS.iter().zip(counts).skip(1);
            rows.extend(calls.map(|(call, n)| (format!("{call} while {moment}"), n)));
        }
        rows.extend(edge_rows("a fall that begins", self.falls));
        rows.extend(edge_rows("a rise that ends", self.rises));
        for (format, counts) in FORMATS.iter().zip(self.carried) {
            let codes = CODES.iter().zip(counts);
            let levels =
                codes.flat_map(|(code, counts)| LEVELS.iter().zip(counts).map(move |row| (code, row)));
            rows.extend(levels.map(|(code, (vb, n))| {
                (format!("{code:02X} given on the {format} with VB {vb}, and carried to its end"), n)
            }));
        }
        rows
    }
}

/// Its place in FORMATS.
fn place(format: Format) -> usize {
    usize::from(format_number(format))
}

fn is_marked(flat: &Flat) -> bool {
    flat.modes & FIRST_FRAME_OVER != 0
}

fn edge_rows(edge: &str, counts: Edges) -> Vec<(String, u64)> {
    let frames = FRAMES.iter().zip(counts);
    let fills = frames.flat_map(|(frame, counts)| FILLS.iter().zip(counts).map(move |row| (frame, row)));
    fills.map(|(frame, (fill, n))| (format!("{edge} {frame}: {fill}"), n)).collect()
}

/// A clear that runs.
struct Clear {
    /// Its place in MOMENTS, where it has two frames.
    moment: Option<usize>,
    /// The place in FRAMES of the one that it waits for or is in.
    frame: usize,
    open: bool,
    /// Its place in FILLS.
    fill: usize,
}

impl Clear {
    fn of(state: &State) -> Option<Clear> {
        let Work::Clear { kind, open, frames_done } = state.work else {
            return None;
        };
        let done = usize::from(frames_done);
        let frame = match state.format {
            Format::Ef9366 => done,
            Format::Ef9365Low => 2 + done,
            Format::Ef9365High => 4 + done,
        };
        let fill = match kind {
            ClearKind::Screen | ClearKind::ScreenAndPosition | ClearKind::ScreenAndRegisters => 0,
            ClearKind::Fill if state.ctrl1 & PEN != 0 => 1,
            ClearKind::Fill => 2,
        };
        let moment = (count::frames(state.format) == 2).then_some(2 * done + usize::from(open));
        Some(Clear { moment, frame, open, fill })
    }

    /// Some dot is not yet as the clear leaves all of them.
    fn shows_on(&self, picture: &[u8]) -> bool {
        let filled = if self.fill == 1 { 0xFF } else { 0x00 };
        picture.iter().any(|byte| *byte != filled)
    }
}
