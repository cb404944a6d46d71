//! A card at work on a panel: its state and what is lent to it. Every call must be accepted.

use crate::card::Card;
use crate::flat::{Flat, FlatAnswer};
use crate::lent::Part;

pub struct Panel<'c, C: Card> {
    pub card: &'c C,
    pub state: Flat,
    pub picture: Vec<u8>,
    pub table: Vec<u8>,
}

impl<'c, C: Card> Panel<'c, C> {
    pub fn fresh(card: &'c C, format: u8, picture: Vec<u8>, table: Vec<u8>) -> Panel<'c, C> {
        Panel { card, state: card.fresh(format).state, picture, table }
    }

    /// The value of an answer, whose state is the card's from now on.
    pub fn accepted(&mut self, answer: FlatAnswer) -> u16 {
        assert_eq!(answer.number, 0);
        self.state = answer.state;
        answer.value
    }

    pub fn write(&mut self, address: u8, value: u8) {
        let answer = self.card.write(self.state, address, value);
        assert_eq!(self.accepted(answer), 0);
    }

    pub fn set_vb(&mut self, level: bool) {
        let answer = self.card.set_vb(self.state, u8::from(level), whole(&mut self.picture));
        assert_eq!(self.accepted(answer), 0);
    }

    pub fn grant(&mut self, n: u16) -> u16 {
        let answer = self.card.grant(self.state, n, whole(&mut self.picture), whole(&mut self.table));
        self.accepted(answer)
    }
}

fn whole(bytes: &mut [u8]) -> Part<'_> {
    let length = bytes.len();
    Part { whole: bytes, start: 0, length }
}
