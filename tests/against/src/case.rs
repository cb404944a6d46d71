//! One call by itself, as the words of a command: its state, its arguments and the memories it lends.

use crate::call::{Call, FREE_NUMBER};
use crate::card::Card;
use crate::flat::{Flat, ALL_ONES};
use crate::memory::{byte, memory, number, spelled};
use crate::scene::{Memories, Outcome, Scene, LONGEST_FILE, LONGEST_PICTURE, LONGEST_TABLE};
use std::fmt::{Display, Formatter, Result as Written};

/// `lent` is what the call lends, so its memories are as long as the call says. A call that knows no state has ALL_ONES.
#[derive(Clone, PartialEq, Eq, Debug)]
pub struct Case {
    pub state: Flat,
    pub call: Call,
    pub lent: Memories,
    pub promise: Option<Promise>,
}

/// What was known of a state before either card was asked.
#[derive(Clone, Copy, PartialEq, Eq, Debug)]
pub enum Promise {
    /// No call refuses it with 1.
    Good,
    /// Every call refuses it with 1.
    Bad,
}

impl Promise {
    pub fn is_kept(self, number: u8) -> bool {
        (self == Promise::Bad) == (number == 1)
    }

    fn word(self) -> &'static str {
        match self {
            Promise::Good => "good",
            Promise::Bad => "bad",
        }
    }
}

/// What was known of the state holds, and the number is not the free one.
pub fn is_due(number: u8, promise: Option<Promise>) -> bool {
    number != FREE_NUMBER && promise.is_none_or(|promise| promise.is_kept(number))
}

impl Case {
    pub fn play(&self, library: &impl Card, model: &impl Card) -> Outcome {
        Scene::holding(&self.lent).play(library, model, self.state, self.call)
    }

    /// Both cards leave the same, and their number can be right.
    pub fn is_settled(&self, outcome: &Outcome) -> bool {
        outcome.agrees() && is_due(outcome.model.number(), self.promise)
    }

    /// The words after `differ call`.
    pub fn of(words: &[String]) -> Result<Case, String> {
        let (words, promise) = match words.split_last() {
            Some((last, rest)) if last == "good" => (rest, Some(Promise::Good)),
            Some((last, rest)) if last == "bad" => (rest, Some(Promise::Bad)),
            _ => (words, None),
        };
        let words: Vec<&str> = words.iter().map(String::as_str).collect();
        let none = Memories::default;
        let (state, call, lent) = match words[..] {
            ["fresh", format] => (ALL_ONES, Call::Fresh { format: byte(format)? }, none()),
            ["write", state, address, value] => {
                (flat(state)?, Call::Write { address: byte(address)?, value: byte(value)? }, none())
            }
            ["read", state, address] => (flat(state)?, Call::Read { address: byte(address)? }, none()),
            ["grant", state, n, pic, listed] => {
                let lent = Memories { picture: picture(pic)?, table: table(listed)?, ..none() };
                (flat(state)?, Call::Grant { n: word(n)?, picture: 0, table: 0 }, lent)
            }
            ["vb", state, level, pic] => {
                let lent = Memories { picture: picture(pic)?, ..none() };
                (flat(state)?, Call::SetVb { level: byte(level)?, picture: 0 }, lent)
            }
            ["lpck", state, h, v] => (flat(state)?, Call::Lpck { h: word(h)?, v: word(v)? }, none()),
            ["address", state] => (flat(state)?, Call::Address, none()),
            ["write-pbm", format, pic, buffer] => {
                let lent = Memories { picture: picture(pic)?, file: file(buffer)?, ..none() };
                (ALL_ONES, Call::WritePbm { format: byte(format)?, picture: 0, buffer: 0 }, lent)
            }
            ["read-pbm", format, pbm, pic] => {
                let lent = Memories { picture: picture(pic)?, file: file(pbm)?, ..none() };
                (ALL_ONES, Call::ReadPbm { format: byte(format)?, file: 0, picture: 0 }, lent)
            }
            _ => return Err(USAGE.to_string()),
        };
        Ok(Case { state, call, lent: none(), promise }.lending(lent))
    }

    /// The same call with other memories.
    pub fn lending(self, lent: Memories) -> Case {
        let Memories { picture, table, file } = &lent;
        let (picture, table, file) = (picture.len(), table.len(), file.len());
        let call = match self.call {
            Call::Grant { n, .. } => Call::Grant { n, picture, table },
            Call::SetVb { level, .. } => Call::SetVb { level, picture },
            Call::WritePbm { format, .. } => Call::WritePbm { format, picture, buffer: file },
            Call::ReadPbm { format, .. } => Call::ReadPbm { format, file, picture },
            other => other,
        };
        Case { call, lent, ..self }
    }
}

pub const USAGE: &str = "Give one call: fresh FORMAT, write STATE ADDRESS VALUE, read STATE ADDRESS, \
     grant STATE N PICTURE TABLE, vb STATE LEVEL PICTURE, lpck STATE H V, address STATE, \
     write-pbm FORMAT PICTURE BUFFER or read-pbm FORMAT FILE PICTURE. STATE is the sixteen bytes in hex. FORMAT, \
     ADDRESS, VALUE and LEVEL are bytes in hex, N, H and V decimal. A memory is its length and, where bytes are \
     not 00, places with the bytes from there on, as often as a number behind * says: 480:165=0180,200=FF*9.";

impl Display for Case {
    fn fmt(&self, out: &mut Formatter) -> Written {
        let state: String = self.state.bytes().iter().map(|byte| format!("{byte:02X}")).collect();
        let Memories { picture, table, file } = &self.lent;
        match self.call {
            Call::Fresh { format } => write!(out, "fresh {format:02X}")?,
            Call::Write { address, value } => write!(out, "write {state} {address:02X} {value:02X}")?,
            Call::Read { address } => write!(out, "read {state} {address:02X}")?,
            Call::Grant { n, .. } => {
                write!(out, "grant {state} {n} {} {}", spelled(picture), spelled(table))?
            }
            Call::SetVb { level, .. } => write!(out, "vb {state} {level:02X} {}", spelled(picture))?,
            Call::Lpck { h, v } => write!(out, "lpck {state} {h} {v}")?,
            Call::Address => write!(out, "address {state}")?,
            Call::WritePbm { format, .. } => {
                write!(out, "write-pbm {format:02X} {} {}", spelled(picture), spelled(file))?
            }
            Call::ReadPbm { format, .. } => {
                write!(out, "read-pbm {format:02X} {} {}", spelled(file), spelled(picture))?
            }
        }
        match self.promise {
            Some(promise) => write!(out, " {}", promise.word()),
            None => Ok(()),
        }
    }
}

fn flat(text: &str) -> Result<Flat, String> {
    let mut bytes = [0; 16];
    if text.len() != 32 || !text.is_ascii() {
        return Err(format!("'{text}' is not a state: sixteen bytes are 32 hex digits."));
    }
    for (place, value) in bytes.iter_mut().enumerate() {
        *value = byte(&text[2 * place..2 * place + 2])?;
    }
    Ok(Flat::of(bytes))
}

fn picture(text: &str) -> Result<Vec<u8>, String> {
    memory(text, LONGEST_PICTURE)
}

fn table(text: &str) -> Result<Vec<u8>, String> {
    memory(text, LONGEST_TABLE)
}

fn file(text: &str) -> Result<Vec<u8>, String> {
    memory(text, LONGEST_FILE)
}

fn word(text: &str) -> Result<u16, String> {
    number(text)
}
