//! What a run has covered of writing and reading PBM: each format, number, edge of a length, and damage of a file.

use crate::call::Call;
use crate::convert::format_of;
use crate::coverage::FORMATS;
use crate::draw::arguments::{bytes, file_bytes};
use crate::draw::damage::{Due, DAMAGES};
use crate::draw::single::Known;
use second::Format;

const EDGES: [&str; 6] =
    ["the right length", "one byte short", "one byte long", "no length", "a shorter one", "a longer one"];
/// Accepted, and the refusals of each call.
const OF_WRITE: [u8; 3] = [0, 2, 9];
const OF_READ: [u8; 5] = [0, 2, 10, 11, 12];

type Edges = [u64; EDGES.len()];

pub struct PbmCoverage {
    written: Counts,
    read: Counts,
    /// Files read into a picture of the right length, by their damage.
    damages: [u64; DAMAGES.len()],
}

/// Of one of the two calls.
struct Counts {
    /// By number and format.
    numbers: [[u64; 3]; 256],
    no_format: u64,
    pictures: Edges,
    /// Of the buffer or the file, where the picture is of the right length.
    files: Edges,
    /// Refused for the picture, and would be without that too.
    twice_refused: u64,
}

const NONE: Counts = Counts {
    numbers: [[0; 3]; 256],
    no_format: 0,
    pictures: [0; EDGES.len()],
    files: [0; EDGES.len()],
    twice_refused: 0,
};

impl Default for PbmCoverage {
    fn default() -> PbmCoverage {
        PbmCoverage { written: NONE, read: NONE, damages: [0; DAMAGES.len()] }
    }
}

impl PbmCoverage {
    pub fn count(&mut self, call: &Call, number: u8, known: Known) {
        match *call {
            Call::WritePbm { format, picture, buffer } => {
                let short = format_of(format).is_some_and(|format| buffer < file_bytes(format));
                self.written.count(format, picture, buffer, number, short);
            }
            Call::ReadPbm { format, picture, file } => {
                let damage = if let Known::File(damage) = known { Some(damage) } else { None };
                let bad = damage.is_some_and(|damage| matches!(DAMAGES[damage].1, Due::Refused(_)));
                self.read.count(format, picture, file, number, bad);
                if let (Some(damage), false) = (damage, number == 2) {
                    self.damages[damage] += 1;
                }
            }
            _ => {}
        }
    }

    /// Each row that a whole run must meet, with its count.
    pub fn rows(&self) -> Vec<(String, u64)> {
        let written = self.written.rows("PBM written", "a buffer", &OF_WRITE);
        let read = self.read.rows("PBM read", "a file", &OF_READ);
        let damages =
            DAMAGES.iter().zip(self.damages).map(|((name, ..), n)| (format!("PBM read, {name}"), n));
        written.into_iter().chain(read).chain(damages).collect()
    }
}

impl Counts {
    fn count(&mut self, format: u8, picture: usize, file: usize, number: u8, refused_else: bool) {
        let Some(format) = format_of(format) else {
            self.no_format += 1;
            return;
        };
        self.numbers[usize::from(number)][place(format)] += 1;
        self.pictures[edge(picture, bytes(format))] += 1;
        if picture == bytes(format) {
            self.files[edge(file, file_bytes(format))] += 1;
        } else if refused_else {
            self.twice_refused += 1;
        }
    }

    fn rows(&self, call: &str, file: &str, numbers: &[u8]) -> Vec<(String, u64)> {
        let mut rows = vec![
            (format!("{call} for a number of no format"), self.no_format),
            (format!("{call}, refused for its picture and else for {file}"), self.twice_refused),
        ];
        for number in numbers {
            let counts = FORMATS.iter().zip(self.numbers[usize::from(*number)]);
            rows.extend(counts.map(|(format, n)| (format!("{call}, number {number} on the {format}"), n)));
        }
        let edges = |lent: &str, counts: Edges| {
            let rows = EDGES.iter().zip(counts);
            rows.map(|(edge, n)| (format!("{call}, {lent} of {edge}"), n)).collect::<Vec<_>>()
        };
        rows.extend(edges("a picture", self.pictures));
        rows.extend(edges(file, self.files));
        rows
    }
}

/// Its place in FORMATS.
fn place(format: Format) -> usize {
    usize::from(crate::convert::format_number(format))
}

/// Its place in EDGES.
fn edge(lent: usize, right: usize) -> usize {
    match lent {
        _ if lent == right => 0,
        _ if lent + 1 == right => 1,
        _ if lent == right + 1 => 2,
        0 => 3,
        _ if lent < right => 4,
        _ => 5,
    }
}
