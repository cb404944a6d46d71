//! The commands that use write cycles, seen alike: how many, where each one falls, and whether it has a dot.

use crate::character::Character;
use crate::state::State;
use crate::vector::Vector;

pub enum Stepping {
    /// 0F: one cycle, no dot.
    OneCycle,
    Vector(Vector),
    Character(Character),
}

impl Stepping {
    /// None for the commands that use no write cycle.
    pub fn of(state: &State, code: u8) -> Option<Stepping> {
        if code == 0x0F {
            return Some(Stepping::OneCycle);
        }
        let vector = Vector::of(state, code).map(Stepping::Vector);
        let character = Character::of(state, code).map(Stepping::Character);
        vector.or(character)
    }

    pub fn count(&self) -> u16 {
        match self {
            Stepping::OneCycle => 1,
            Stepping::Vector(vector) => vector.count(),
            Stepping::Character(character) => character.count(),
        }
    }

    /// From where the command began to the place of cycle i.
    pub fn offset(&self, i: u16) -> (i32, i32) {
        match self {
            Stepping::OneCycle => (0, 0),
            Stepping::Vector(vector) => vector.offset(i),
            Stepping::Character(character) => character.offset(i),
        }
    }

    /// From where the command began to where it leaves X and Y.
    pub fn end(&self) -> (i32, i32) {
        match self {
            Stepping::OneCycle => (0, 0),
            Stepping::Vector(vector) => vector.end(),
            Stepping::Character(character) => character.end(),
        }
    }

    pub fn has_dot(&self, i: u16, table: &[u8]) -> bool {
        match self {
            Stepping::OneCycle => false,
            Stepping::Vector(vector) => vector.has_dot(i),
            Stepping::Character(character) => character.has_dot(i, table),
        }
    }
}
