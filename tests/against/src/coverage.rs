//! The finer counts of a run: single codes and addresses, formats, lengths lent, sizes of grants, the moments of VB
//! calls and LPCK edges, what calls met left-overs, the frames of clears, how characters lie, and PBM.

use crate::call::{Call, FREE_NUMBER, KINDS, KINDS_OF_CARD};
use crate::convert::{format_number, has_left_overs, state_of};
use crate::draw::arguments::{bytes, TABLE_BYTES};
use crate::draw::count;
use crate::draw::left_over::{self, Doing};
use crate::draw::single::Known;
use crate::flat::Flat;
use crate::frame_coverage::FrameCoverage;
use crate::pbm_coverage::PbmCoverage;
use crate::scene::Memories;
use crate::slant_coverage::SlantCoverage;
use second::{Pen, State, Work};

const LENGTHS: [&str; 4] = ["the right length", "no length", "a shorter one", "a longer one"];
pub const FORMATS: [&str; 3] = ["EF9366", "FMAT high", "FMAT low"];
const WORKS: [&str; 8] = [
    "idle",
    "stepping",
    "a clear waiting for its one frame",
    "a clear in its one frame",
    "a clear waiting for the first of two frames",
    "a clear in the first of two frames",
    "a clear waiting for the second of two frames",
    "a clear in the second of two frames",
];
const PENS: [&str; 3] = ["no pen sequence", "the pen waiting", "the pen in its frame"];
pub const LEVELS: [&str; 2] = ["low", "high"];

/// No grant finds more cycles left than 12,288, and a part is less.
const PARTS: usize = 15;

pub struct Coverage {
    commands: [u64; 256],
    written: [u64; 16],
    read: [u64; 16],
    formats: [u64; 3],
    pictures: [u64; 4],
    tables: [u64; 4],
    /// By how many binary digits n has.
    grants: [u64; 17],
    /// Grants of some cycles that leave some, likewise.
    parts: [u64; PARTS],
    /// By the moment, and the level that is set.
    blankings: [[u64; 2]; MOMENTS],
    edges: [u64; MOMENTS],
    /// Accepted beside each kind of left-over, by the kind of call and by VB.
    left_over_calls: [[u64; KINDS_OF_CARD]; left_over::KINDS.len()],
    left_over_levels: [[u64; 2]; left_over::KINDS.len()],
    /// Beside left-overs of any kind, by number.
    left_over_numbers: [u64; 256],
    pub frames: FrameCoverage,
    slants: SlantCoverage,
    pbm: PbmCoverage,
}

/// Of what runs, the pen's sequence and VB.
const MOMENTS: usize = WORKS.len() * 3 * 2;

impl Default for Coverage {
    fn default() -> Coverage {
        Coverage {
            commands: [0; 256],
            written: [0; 16],
            read: [0; 16],
            formats: [0; 3],
            pictures: [0; 4],
            tables: [0; 4],
            grants: [0; 17],
            parts: [0; PARTS],
            blankings: [[0; 2]; MOMENTS],
            edges: [0; MOMENTS],
            left_over_calls: [[0; KINDS_OF_CARD]; left_over::KINDS.len()],
            left_over_levels: [[0; 2]; left_over::KINDS.len()],
            left_over_numbers: [0; 256],
            frames: FrameCoverage::default(),
            slants: SlantCoverage::default(),
            pbm: PbmCoverage::default(),
        }
    }
}

impl Coverage {
    /// `lent` is as it was before the call.
    pub fn count(&mut self, flat: &Flat, call: &Call, number: u8, known: Known, lent: &Memories) {
        self.pbm.count(call, number, known);
        if has_left_overs(flat) {
            self.left_over_numbers[usize::from(number)] += 1;
        }
        if number == 1 {
            return;
        }
        if let Call::Fresh { format } = call {
            self.formats[usize::from(*format)] += 1;
            return;
        }
        // Whoever takes what stands for no state is told of elsewhere.
        let Some(state) = state_of(flat) else {
            return;
        };
        self.formats[usize::from(format_number(state.format))] += 1;
        if let (Known::LeftOver(kind), 0) = (known, number) {
            self.left_over_calls[kind][call.kind()] += 1;
            self.left_over_levels[kind][usize::from(state.vb)] += 1;
        }
        self.frames.count(flat, &state, call, number, &lent.picture);
        if number == 0 {
            self.slants.count(&state, call, lent);
        }
        match *call {
            Call::Write { address, value } => self.count_write(address, value, number),
            Call::Read { address: address @ 0..=15 } => self.read[usize::from(address)] += 1,
            Call::Grant { n, picture, table } => {
                self.pictures[length(picture, bytes(state.format))] += 1;
                self.tables[length(table, TABLE_BYTES)] += 1;
                if number == 0 {
                    self.count_grant(n, count::rest(&state));
                }
            }
            Call::SetVb { level, picture } => {
                self.pictures[length(picture, bytes(state.format))] += 1;
                if number == 0 {
                    self.blankings[moment(&state)][usize::from(level != 0)] += 1;
                }
            }
            Call::Lpck { .. } if number == 0 => self.edges[moment(&state)] += 1,
            _ => {}
        }
    }

    fn count_write(&mut self, address: u8, value: u8, number: u8) {
        if address < 16 {
            self.written[usize::from(address)] += 1;
        }
        if address == 0 && number == 0 {
            self.commands[usize::from(value)] += 1;
        }
    }

    fn count_grant(&mut self, n: u16, rest: u16) {
        self.grants[digits(n)] += 1;
        if 0 < n && n < rest {
            self.parts[digits(n)] += 1;
        }
    }

    /// Each row that a whole run must meet, with its count.
    pub fn rows(&self) -> Vec<(String, u64)> {
        let mut rows = Vec::new();
        let mut add = |name: String, count: u64| rows.push((name, count));
        self.commands
            .iter()
            .enumerate()
            .for_each(|(code, n)| add(format!("command {code:02X} accepted"), *n));
        self.written.iter().enumerate().for_each(|(at, n)| add(format!("address {at:X} written"), *n));
        self.read.iter().enumerate().for_each(|(at, n)| add(format!("address {at:X} read"), *n));
        FORMATS.iter().zip(self.formats).for_each(|(name, n)| add(format!("a call on the {name}"), n));
        LENGTHS.iter().zip(self.pictures).for_each(|(name, n)| add(format!("a picture of {name}"), n));
        LENGTHS.iter().zip(self.tables).for_each(|(name, n)| add(format!("a table of {name}"), n));
        self.grants.iter().enumerate().for_each(|(d, n)| add(format!("a grant of {d} binary digits"), *n));
        let parts = self.parts.iter().enumerate().skip(1);
        parts.for_each(|(d, n)| add(format!("part of a command by a grant of {d} binary digits"), *n));
        for (moment, name) in possible_moments() {
            add(format!("an LPCK edge when {name}"), self.edges[moment]);
            for (level, to) in LEVELS.iter().enumerate() {
                add(format!("VB set {to} when {name}"), self.blankings[moment][level]);
            }
        }
        self.left_over_rows(&mut add);
        rows.extend(self.frames.rows());
        rows.extend(self.slants.rows());
        rows.extend(self.pbm.rows());
        rows
    }

    fn left_over_rows(&self, add: &mut impl FnMut(String, u64)) {
        for (kind, (name, doing, _)) in left_over::KINDS.iter().enumerate() {
            // Fresh is handed no state, and a write is accepted only when nothing runs.
            let never = if *doing == Doing::Idle { 1 } else { 2 };
            let calls = KINDS.iter().zip(self.left_over_calls[kind]).skip(never);
            calls.for_each(|(call, n)| add(format!("{call} accepted beside a left-over, {name}"), n));
            let levels = LEVELS.iter().zip(self.left_over_levels[kind]);
            levels.for_each(|(level, n)| add(format!("accepted beside a left-over, {name}, VB {level}"), n));
        }
        let numbers = self.left_over_numbers.iter().enumerate().take(9);
        let numbers = numbers.filter(|(number, _)| *number != usize::from(FREE_NUMBER));
        numbers.for_each(|(number, n)| add(format!("number {number} beside left-overs"), *n));
    }
}

/// Its place in LENGTHS.
fn length(lent: usize, right: usize) -> usize {
    match lent {
        _ if lent == right => 0,
        0 => 1,
        _ if lent < right => 2,
        _ => 3,
    }
}

fn digits(n: u16) -> usize {
    (u16::BITS - n.leading_zeros()) as usize
}

fn moment(state: &State) -> usize {
    let work = match state.work {
        Work::Idle => 0,
        Work::Steps { .. } => 1,
        Work::Clear { open, frames_done, .. } => {
            let frame = if count::frames(state.format) == 1 { 0 } else { 1 + usize::from(frames_done) };
            2 + 2 * frame + usize::from(open)
        }
    };
    let pen = match state.pen {
        Pen::Off => 0,
        Pen::Waiting => 1,
        Pen::Open => 2,
    };
    (work * 3 + pen) * 2 + usize::from(state.vb)
}

/// VB is low inside an open frame.
fn possible_moments() -> impl Iterator<Item = (usize, String)> {
    (0..MOMENTS).filter_map(|moment| {
        let (work, pen, vb) = (moment / 6, moment / 2 % 3, moment % 2);
        // Of the clears among WORKS every second one is in a frame.
        let open = (work > 1 && work % 2 == 1) || pen == 2;
        let possible = vb == 0 || !open;
        possible.then(|| (moment, format!("{}, {}, VB {}", WORKS[work], PENS[pen], LEVELS[vb])))
    })
}
