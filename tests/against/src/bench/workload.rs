//! What is timed: each workload is one pass over a scene, the same for every contender.

use super::figures::{
    at, set, Figures, Start, CYCLIC, DOWN, LETTERS, SLANTED, SLANTED_UP, STRAIGHT, UP, VECTORS,
};
use super::morning;
use super::runner::Runner;
use crate::draw::arguments::{bytes, file_bytes};
use crate::draw::count;
use crate::draw::damage::dots::without_white_space;
use crate::draw::pbm;
use crate::draw::states::FORMATS;
use crate::random::Random;
use second::Format;
use std::hint::black_box;

#[derive(Clone, Copy, PartialEq, Eq, Debug)]
pub enum Workload {
    /// Each run to its end by one grant.
    Whole(Figures),
    /// Each run to its end by grants of so many cycles.
    Portions(Figures, u16),
    /// STATUS read again and again while each waits for its cycles.
    Looks(Figures),
    /// The address outputs of a card in each place.
    Addresses,
    ShortVectors,
    Writes,
    Reads,
    /// 04 from its command through its frames, on the format.
    Clears(Format),
    Morning,
    PbmOut,
    PbmIn(Dots),
}

/// What parts the dots of a file.
#[derive(Clone, Copy, PartialEq, Eq, Debug)]
pub enum Dots {
    /// Line feeds, as it is written.
    InLines,
    /// Nothing.
    OnEnd,
}

/// By name, what it is, and the unit its time is given for.
pub const ALL: [(&str, Workload, &str); 31] = [
    ("long-vectors", Workload::Whole(VECTORS), "cycle"),
    ("dotted", Workload::Whole(vectors(DOWN, 3, Start::Inside)), "cycle"),
    ("pen-up", Workload::Whole(vectors(UP, 0, Start::Inside)), "cycle"),
    ("half-outside", Workload::Whole(vectors(DOWN, 0, Start::Across)), "cycle"),
    ("cyclic", Workload::Whole(vectors(CYCLIC, 0, Start::Across)), "cycle"),
    ("short-vectors", Workload::ShortVectors, "vector"),
    ("csize-11", Workload::Whole(letters(DOWN, STRAIGHT, 0x11)), "cycle"),
    ("csize-44", Workload::Whole(letters(DOWN, STRAIGHT, 0x44)), "cycle"),
    ("csize-00", Workload::Whole(letters(DOWN, STRAIGHT, 0x00)), "cycle"),
    ("slanted-11", Workload::Whole(letters(DOWN, SLANTED, 0x11)), "cycle"),
    ("slanted-44", Workload::Whole(letters(DOWN, SLANTED, 0x44)), "cycle"),
    ("slanted-up-11", Workload::Whole(letters(DOWN, SLANTED_UP, 0x11)), "cycle"),
    ("slanted-up-44", Workload::Whole(letters(DOWN, SLANTED_UP, 0x44)), "cycle"),
    ("pen-up-letters", Workload::Whole(letters(UP, STRAIGHT, 0x11)), "cycle"),
    ("blocks-11", Workload::Whole(Figures::Blocks { csize: 0x11 }), "cycle"),
    ("blocks-44", Workload::Whole(Figures::Blocks { csize: 0x44 }), "cycle"),
    ("one-cycle", Workload::Portions(VECTORS, 1), "call"),
    ("one-cycle-letters", Workload::Portions(LETTERS, 1), "call"),
    ("seven-cycles", Workload::Portions(VECTORS, 7), "call"),
    ("seven-cycles-letters", Workload::Portions(LETTERS, 7), "call"),
    ("write", Workload::Writes, "call"),
    ("read", Workload::Reads, "call"),
    ("status-vectors", Workload::Looks(VECTORS), "call"),
    ("status-letters", Workload::Looks(LETTERS), "call"),
    ("address", Workload::Addresses, "call"),
    ("clear", Workload::Clears(Format::Ef9366), "clear"),
    ("clear-two-frames", Workload::Clears(Format::Ef9365High), "clear"),
    ("morning", Workload::Morning, "morning"),
    ("pbm-out", Workload::PbmOut, "dot"),
    ("pbm-in", Workload::PbmIn(Dots::InLines), "dot"),
    ("pbm-in-plain", Workload::PbmIn(Dots::OnEnd), "dot"),
];

const fn vectors(ctrl1: u8, line_type: u8, start: Start) -> Figures {
    Figures::Vectors { ctrl1, line_type, start }
}

const fn letters(ctrl1: u8, ctrl2: u8, csize: u8) -> Figures {
    Figures::Letters { ctrl1, ctrl2, csize }
}

pub struct Scene<R> {
    pub picture: Vec<u8>,
    /// A buffer to be written, or a file to be read; of address outputs three bytes a card.
    pub file: Vec<u8>,
    table: Vec<u8>,
    forecast: [u8; morning::POINTS],
    /// Commands about to run, cards at rest in their places, or the one card that goes on.
    cards: Vec<R>,
    /// How many grants or looks each of them gets.
    calls: Vec<u16>,
}

const REGISTERS: [u8; 8] = [1, 2, 3, 5, 7, 9, 11, 8];
/// How often a host looks at STATUS while a command runs.
const LOOKS: u16 = 16;
/// In each format.
const PLACES: usize = 64;

impl Workload {
    pub fn scene<R: Runner>(self) -> Scene<R> {
        let mut table = vec![0; 480];
        Random::new(9366).fill(&mut table);
        let (cards, calls) = (self.cards(), self.calls());
        Scene {
            picture: self.picture(),
            file: self.file(),
            table,
            forecast: morning::figures(),
            cards,
            calls,
        }
    }

    /// Written out, dots at random: no guess at the next one helps.
    fn picture(self) -> Vec<u8> {
        if self == Workload::PbmOut {
            return random_dots();
        }
        vec![self.paper(); bytes(self.format())]
    }

    fn format(self) -> Format {
        match self {
            Workload::Clears(format) => format,
            _ => Format::Ef9366,
        }
    }

    fn file(self) -> Vec<u8> {
        match self {
            Workload::Addresses => vec![0; 3 * FORMATS.len() * PLACES],
            Workload::PbmOut => vec![0; file_bytes(Format::Ef9366)],
            Workload::PbmIn(Dots::InLines) => pbm::file(Format::Ef9366, &random_dots()),
            Workload::PbmIn(Dots::OnEnd) => without_white_space(pbm::file(Format::Ef9366, &random_dots())),
            _ => Vec::new(),
        }
    }

    /// Every byte of the picture before: lit where a pass leaves dots dark, so that what it did shows.
    fn paper(self) -> u8 {
        match self {
            Workload::Clears(_) | Workload::Morning => 0xFF,
            _ => 0,
        }
    }

    fn cards<R: Runner>(self) -> Vec<R> {
        match self {
            Workload::Whole(figures) | Workload::Portions(figures, _) | Workload::Looks(figures) => {
                figures.cards()
            }
            Workload::Addresses => places(),
            Workload::ShortVectors => vec![set(self.fresh(), &[(1, 3), (8, 1), (11, 128)])],
            Workload::Clears(_) => vec![self.fresh()],
            Workload::Writes | Workload::Reads | Workload::Morning => vec![set(self.fresh(), &[(1, 3)])],
            Workload::PbmOut | Workload::PbmIn(_) => Vec::new(),
        }
    }

    fn fresh<R: Runner>(self) -> R {
        R::fresh(self.format())
    }

    fn calls(self) -> Vec<u16> {
        match self {
            Workload::Whole(figures) => figures.cycles().iter().map(|_| 1).collect(),
            Workload::Portions(figures, n) => {
                figures.cycles().iter().map(|cycles| cycles.div_ceil(n)).collect()
            }
            Workload::Looks(figures) => figures.cycles().iter().map(|_| LOOKS).collect(),
            _ => Vec::new(),
        }
    }

    /// Units of work in a pass.
    pub fn units(self) -> u64 {
        match self {
            Workload::Whole(figures) => figures.cycles().iter().map(|cycles| u64::from(*cycles)).sum(),
            Workload::Portions(..) | Workload::Looks(_) => {
                self.calls().iter().map(|calls| u64::from(*calls)).sum()
            }
            Workload::Addresses => (FORMATS.len() * PLACES) as u64,
            Workload::ShortVectors => 128,
            Workload::Writes | Workload::Reads => 16 * REGISTERS.len() as u64,
            Workload::Clears(_) | Workload::Morning => 1,
            Workload::PbmOut | Workload::PbmIn(_) => Format::Ef9366.dots() as u64,
        }
    }

    pub fn pass<R: Runner>(self, scene: &mut Scene<R>) {
        match self {
            Workload::Whole(_) => run_out(scene),
            Workload::Portions(_, n) => portions(scene, n),
            Workload::Looks(_) => looks(scene),
            Workload::Addresses => addresses(scene),
            Workload::ShortVectors => short_vectors(scene),
            Workload::Writes => (0..16).for_each(|value| writes(&mut scene.cards[0], value)),
            Workload::Reads => (0..16).for_each(|_| reads(&mut scene.cards[0])),
            Workload::Clears(format) => {
                scene.cards[0].clear(count::frames(format), black_box(&mut scene.picture));
            }
            Workload::Morning => {
                let Scene { cards, forecast, picture, table, .. } = scene;
                morning::whole(&mut cards[0], black_box(forecast), picture, table);
            }
            Workload::PbmOut => R::write_pbm(black_box(&scene.picture), &mut scene.file),
            Workload::PbmIn(_) => R::read_pbm(black_box(&scene.file), &mut scene.picture),
        }
    }
}

fn random_dots() -> Vec<u8> {
    let mut picture = vec![0; 16_384];
    Random::new(9366).fill(&mut picture);
    picture
}

/// X and Y at random over all their twelve bits.
fn places<R: Runner>() -> Vec<R> {
    let mut random = Random::new(9366);
    let formats = FORMATS.iter().flat_map(|format| [*format; PLACES]);
    formats.map(|format| at(format, random.among(0, 4_095), random.among(0, 4_095))).collect()
}

fn run_out<R: Runner>(scene: &mut Scene<R>) {
    for card in &scene.cards {
        black_box(card.clone()).grant(65_535, &mut scene.picture, &scene.table);
    }
}

fn portions<R: Runner>(scene: &mut Scene<R>, n: u16) {
    for (card, calls) in scene.cards.iter().zip(&scene.calls) {
        let mut card = card.clone();
        for _ in 0..*calls {
            card.grant(n, &mut scene.picture, &scene.table);
        }
    }
}

/// STATUS, by a host that waits for the command to end.
fn looks<R: Runner>(scene: &mut Scene<R>) {
    for (card, calls) in scene.cards.iter_mut().zip(&scene.calls) {
        for _ in 0..*calls {
            black_box(card.read(black_box(0)));
        }
    }
}

fn addresses<R: Runner>(scene: &mut Scene<R>) {
    for (card, lines) in black_box(&scene.cards).iter().zip(scene.file.chunks_exact_mut(3)) {
        lines.copy_from_slice(&card.address());
    }
}

/// Over all codes the ways there and back even out.
fn short_vectors<R: Runner>(scene: &mut Scene<R>) {
    let card = &mut scene.cards[0];
    for code in 0x80..=0xFF {
        card.write(0, black_box(code));
        card.grant(4, &mut scene.picture, &scene.table);
    }
}

fn writes<R: Runner>(card: &mut R, value: u8) {
    for address in REGISTERS {
        card.write(black_box(address), value);
    }
}

fn reads<R: Runner>(card: &mut R) {
    for address in REGISTERS {
        black_box(card.read(black_box(address)));
    }
}
