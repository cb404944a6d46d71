//! The memories that calls are made on, and one call made by both cards.

use crate::call::{Call, Lengths, Parts, Reply};
use crate::card::Card;
use crate::flat::Flat;
use crate::lent::{Fault, Lent};
use crate::random::Random;

/// Longer than the longest picture, so that too long ones can be lent.
pub const LONGEST_PICTURE: usize = 40_000;
pub const LONGEST_TABLE: usize = 1_000;
/// Longer than the longest PBM that is written, so that more white space, comments and a tail have room.
pub const LONGEST_FILE: usize = 300_000;

pub struct Scene {
    pub picture: Lent,
    pub table: Lent,
    pub file: Lent,
    before: Memories,
}

/// What a call is lent: a memory has no bytes where it is not lent.
#[derive(Clone, Default, PartialEq, Eq, Debug)]
pub struct Memories {
    pub picture: Vec<u8>,
    pub table: Vec<u8>,
    pub file: Vec<u8>,
}

/// What both cards did with one call.
#[derive(Clone, Copy, PartialEq, Eq, Debug)]
pub struct Outcome {
    pub library: Reply,
    pub model: Reply,
    pub picture: Option<Fault>,
    pub table: Option<Fault>,
    pub file: Option<Fault>,
}

impl Outcome {
    pub fn agrees(&self) -> bool {
        let faults = [self.picture, self.table, self.file];
        self.library == self.model && faults.iter().all(Option::is_none)
    }
}

impl Default for Scene {
    fn default() -> Scene {
        Scene::holding(&Memories::default())
    }
}

impl Scene {
    pub fn holding(memories: &Memories) -> Scene {
        Scene {
            picture: Lent::holding(LONGEST_PICTURE, &memories.picture),
            table: Lent::holding(LONGEST_TABLE, &memories.table),
            file: Lent::holding(LONGEST_FILE, &memories.file),
            before: Memories::default(),
        }
    }

    /// The memories that the last call was lent, as they were before it.
    pub fn before(&self) -> &Memories {
        &self.before
    }

    /// A dark, a lit or a random picture, and a random table.
    pub fn renew(&mut self, random: &mut Random) {
        match random.below(4) {
            0 => self.picture.refill_with(0x00),
            1 => self.picture.refill_with(0xFF),
            _ => self.picture.refill(random),
        }
        self.table.refill(random);
    }

    pub fn play(&mut self, library: &impl Card, model: &impl Card, state: Flat, call: Call) -> Outcome {
        let lends = call.lends();
        self.remember(lends);
        let library = call.made(library, state, self.to_library(lends));
        let model = call.made(model, state, self.to_model(lends));
        // A call has no way to a memory that it is not lent.
        let fault = |lent: &Lent, length: Option<usize>| length.and_then(|_| lent.fault());
        Outcome {
            library,
            model,
            picture: fault(&self.picture, lends.picture),
            table: fault(&self.table, lends.table),
            file: fault(&self.file, lends.file),
        }
    }

    fn remember(&mut self, lends: Lengths) {
        let copy = |to: &mut Vec<u8>, lent: &Lent, length: Option<usize>| {
            to.clear();
            to.extend_from_slice(lent.lent(length.unwrap_or(0)));
        };
        copy(&mut self.before.picture, &self.picture, lends.picture);
        copy(&mut self.before.table, &self.table, lends.table);
        copy(&mut self.before.file, &self.file, lends.file);
    }

    pub fn to_library(&mut self, lends: Lengths) -> Parts<'_> {
        Parts {
            picture: self.picture.to_library(lends.picture.unwrap_or(0)),
            table: self.table.to_library(lends.table.unwrap_or(0)),
            file: self.file.to_library(lends.file.unwrap_or(0)),
        }
    }

    pub fn to_model(&mut self, lends: Lengths) -> Parts<'_> {
        Parts {
            picture: self.picture.to_model(lends.picture.unwrap_or(0)),
            table: self.table.to_model(lends.table.unwrap_or(0)),
            file: self.file.to_model(lends.file.unwrap_or(0)),
        }
    }
}
