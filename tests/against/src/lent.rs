//! Memory to lend, twice: one copy for each card. Around the lent part lie guard bytes, and all of it is
//! compared, so a byte changed outside the part shows. (The model cannot change one: it only has the part.)

use crate::random::Random;

/// Bytes before the lent part; at least as many follow it.
pub const GUARD: usize = 64;

pub struct Lent {
    library: Vec<u8>,
    model: Vec<u8>,
}

/// The part of a memory that a call lends.
pub struct Part<'a> {
    pub whole: &'a mut [u8],
    pub start: usize,
    pub length: usize,
}

impl Part<'_> {
    pub fn bytes(&mut self) -> &mut [u8] {
        &mut self.whole[self.start..self.start + self.length]
    }
}

/// A byte that differs, counted from the start of the lent part; negative in the guard before it.
#[derive(Clone, Copy, PartialEq, Eq, Debug)]
pub struct Fault {
    pub place: isize,
    pub library: u8,
    pub model: u8,
}

impl Lent {
    /// Room for a part of any length up to `longest`.
    pub fn new(longest: usize) -> Lent {
        let bytes = vec![0xA5; GUARD + longest + GUARD];
        Lent { library: bytes.clone(), model: bytes }
    }

    /// Room for as much, the lent part as given.
    pub fn holding(longest: usize, bytes: &[u8]) -> Lent {
        let mut lent = Lent::new(longest);
        lent.lay(bytes);
        lent
    }

    /// The same new start of the lent part for both; what lies behind it stays.
    pub fn lay(&mut self, bytes: &[u8]) {
        for memory in [&mut self.library, &mut self.model] {
            memory[GUARD..GUARD + bytes.len()].copy_from_slice(bytes);
        }
    }

    /// The lent part, while both still have the same.
    pub fn lent(&self, length: usize) -> &[u8] {
        &self.library[GUARD..GUARD + length]
    }

    /// The same new content for both, guards and all.
    pub fn refill(&mut self, random: &mut Random) {
        random.fill(&mut self.library);
        self.model.copy_from_slice(&self.library);
    }

    pub fn refill_with(&mut self, byte: u8) {
        self.library.fill(byte);
        self.model.fill(byte);
    }

    pub fn to_library(&mut self, length: usize) -> Part<'_> {
        Part { whole: &mut self.library, start: GUARD, length }
    }

    pub fn to_model(&mut self, length: usize) -> Part<'_> {
        Part { whole: &mut self.model, start: GUARD, length }
    }

    pub fn fault(&self) -> Option<Fault> {
        if self.library == self.model {
            return None;
        }
        let place = self.library.iter().zip(&self.model).position(|(library, model)| library != model)?;
        Some(Fault {
            place: place as isize - GUARD as isize,
            library: self.library[place],
            model: self.model[place],
        })
    }
}
