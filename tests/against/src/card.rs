//! The calls of a card in flat form, whoever answers them.

use crate::flat::{Flat, FlatAddress, FlatAnswer, FlatPbm};
use crate::lent::Part;

pub trait Card {
    fn fresh(&self, format: u8) -> FlatAnswer;
    fn write(&self, state: Flat, address: u8, value: u8) -> FlatAnswer;
    fn read(&self, state: Flat, address: u8) -> FlatAnswer;
    fn grant(&self, state: Flat, n: u16, picture: Part, table: Part) -> FlatAnswer;
    /// Level 0 is low, any other byte high.
    fn set_vb(&self, state: Flat, level: u8, picture: Part) -> FlatAnswer;
    fn lpck(&self, state: Flat, h: u16, v: u16) -> FlatAnswer;
    fn address(&self, state: Flat) -> FlatAddress;
    fn write_pbm(&self, format: u8, picture: Part, buffer: Part) -> FlatPbm;
    fn read_pbm(&self, format: u8, file: Part, picture: Part) -> FlatPbm;
}
