//! One call with its arguments, and what it says in words.

use crate::card::Card;
use crate::flat::{Flat, FlatAddress, FlatAnswer, FlatPbm};
use crate::lent::Part;
use std::fmt::{Display, Formatter, Result};

/// No call gives it: it was the refusal of tilted characters, and these are drawn.
pub const FREE_NUMBER: u8 = 7;

/// `picture`, `table`, `buffer` and `file` are the lengths of the memories lent.
#[derive(Clone, Copy, PartialEq, Eq, Debug)]
pub enum Call {
    Fresh { format: u8 },
    Write { address: u8, value: u8 },
    Read { address: u8 },
    Grant { n: u16, picture: usize, table: usize },
    SetVb { level: u8, picture: usize },
    Lpck { h: u16, v: u16 },
    Address,
    WritePbm { format: u8, picture: usize, buffer: usize },
    ReadPbm { format: u8, file: usize, picture: usize },
}

#[derive(Clone, Copy, PartialEq, Eq, Debug)]
pub enum Reply {
    Answer(FlatAnswer),
    Address(FlatAddress),
    Pbm(FlatPbm),
}

impl Reply {
    pub fn number(&self) -> u8 {
        match self {
            Reply::Answer(answer) => answer.number,
            Reply::Address(address) => address.number,
            Reply::Pbm(answer) => answer.number,
        }
    }
}

pub const KINDS: [&str; 9] = [
    "fresh",
    "register write",
    "register read",
    "grant",
    "VB",
    "LPCK",
    "address outputs",
    "PBM written",
    "PBM read",
];

/// So many of KINDS, the first, are calls of a card; those after them know no state.
pub const KINDS_OF_CARD: usize = 7;

/// How much a call lends of each memory; None of one that it does not lend.
#[derive(Clone, Copy, Default, PartialEq, Eq, Debug)]
pub struct Lengths {
    pub picture: Option<usize>,
    pub table: Option<usize>,
    /// A buffer to be written or a file to be read.
    pub file: Option<usize>,
}

/// The memories lent to a call; it takes those that `lends` says.
pub struct Parts<'a> {
    pub picture: Part<'a>,
    pub table: Part<'a>,
    pub file: Part<'a>,
}

impl Call {
    /// Its place in KINDS.
    pub fn kind(&self) -> usize {
        match self {
            Call::Fresh { .. } => 0,
            Call::Write { .. } => 1,
            Call::Read { .. } => 2,
            Call::Grant { .. } => 3,
            Call::SetVb { .. } => 4,
            Call::Lpck { .. } => 5,
            Call::Address => 6,
            Call::WritePbm { .. } => 7,
            Call::ReadPbm { .. } => 8,
        }
    }

    pub fn knows_state(&self) -> bool {
        self.kind() < KINDS_OF_CARD
    }

    pub fn lends(&self) -> Lengths {
        match *self {
            Call::Grant { picture, table, .. } => {
                Lengths { picture: Some(picture), table: Some(table), ..Lengths::default() }
            }
            Call::SetVb { picture, .. } => Lengths { picture: Some(picture), ..Lengths::default() },
            Call::WritePbm { picture, buffer: file, .. } | Call::ReadPbm { picture, file, .. } => {
                Lengths { picture: Some(picture), file: Some(file), ..Lengths::default() }
            }
            _ => Lengths::default(),
        }
    }

    pub fn made(&self, card: &impl Card, state: Flat, parts: Parts) -> Reply {
        let Parts { picture, table, file } = parts;
        match *self {
            Call::Fresh { format } => Reply::Answer(card.fresh(format)),
            Call::Write { address, value } => Reply::Answer(card.write(state, address, value)),
            Call::Read { address } => Reply::Answer(card.read(state, address)),
            Call::Grant { n, .. } => Reply::Answer(card.grant(state, n, picture, table)),
            Call::SetVb { level, .. } => Reply::Answer(card.set_vb(state, level, picture)),
            Call::Lpck { h, v } => Reply::Answer(card.lpck(state, h, v)),
            Call::Address => Reply::Address(card.address(state)),
            Call::WritePbm { format, .. } => Reply::Pbm(card.write_pbm(format, picture, file)),
            Call::ReadPbm { format, .. } => Reply::Pbm(card.read_pbm(format, file, picture)),
        }
    }
}

impl Display for Call {
    fn fmt(&self, out: &mut Formatter) -> Result {
        match self {
            Call::Fresh { format } => write!(out, "the fresh state of format {format}"),
            Call::Write { address: 0, value } => write!(out, "give command {value:02X}"),
            Call::Write { address, value } => write!(out, "write {value:02X} to address {address:X}"),
            Call::Read { address } => write!(out, "read address {address:X}"),
            Call::Grant { n, picture, table } => {
                write!(out, "grant {n} cycles, lending {picture} bytes of picture and {table} of table")
            }
            Call::SetVb { level, picture } => {
                write!(out, "set VB to level {level}, lending {picture} bytes of picture")
            }
            Call::Lpck { h, v } => write!(out, "report an LPCK edge at segment {h}, line {v}"),
            Call::Address => write!(out, "give the address outputs"),
            Call::WritePbm { format, picture, buffer } => write!(
                out,
                "write PBM of format {format}, lending {picture} bytes of picture and {buffer} of buffer"
            ),
            Call::ReadPbm { format, file, picture } => {
                write!(out, "read PBM of format {format} from {file} bytes, lending {picture} of picture")
            }
        }
    }
}
