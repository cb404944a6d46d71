//! What a call hands back.

use crate::refusal::ACCEPTED;
use crate::state::State;

#[derive(Clone, Copy, PartialEq, Eq, Debug)]
pub struct Answer {
    /// 0 when accepted, else the refusal number.
    pub number: u8,
    pub value: u16,
    pub state: State,
}

#[derive(Clone, Copy, PartialEq, Eq, Debug)]
pub struct AddressAnswer {
    pub number: u8,
    /// DAD0 to DAD6 while CK is low.
    pub ck_low: u8,
    /// DAD0 to DAD6 while CK is high.
    pub ck_high: u8,
    pub msl: u8,
}

#[derive(Clone, Copy, PartialEq, Eq, Debug)]
pub struct PbmAnswer {
    pub number: u8,
    /// The bytes written; past 16 bits (reading a.21).
    pub value: u32,
}

impl Answer {
    pub fn accepted(value: u16, state: State) -> Answer {
        Answer { number: ACCEPTED, value, state }
    }

    /// A refusal has value 0 and leaves the state as it was handed in.
    pub fn refused(number: u8, state: &State) -> Answer {
        Answer { number, value: 0, state: *state }
    }
}

impl PbmAnswer {
    pub fn accepted(value: u32) -> PbmAnswer {
        PbmAnswer { number: ACCEPTED, value }
    }

    pub fn refused(number: u8) -> PbmAnswer {
        PbmAnswer { number, value: 0 }
    }
}
