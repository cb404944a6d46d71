//! The independent model behind the same flat calls.

use crate::card::Card;
use crate::convert::{flattened, format_of, state_of};
use crate::flat::{Flat, FlatAddress, FlatAnswer, FlatPbm, ALL_ONES};
use crate::lent::Part;
use second::{Answer, Format, PbmAnswer, State};

#[derive(Clone, Copy)]
pub struct Model;

/// Refusal 1: the state is impossible, or a number in it names nothing.
const BAD_STATE: u8 = 1;
/// Refusal 2: no picture is as long as that of a format that is none.
const BAD_PICTURE: u8 = 2;

impl Card for Model {
    fn fresh(&self, format: u8) -> FlatAnswer {
        match format_of(format) {
            Some(format) => FlatAnswer { number: 0, value: 0, state: flattened(&second::fresh(format)) },
            None => FlatAnswer { number: BAD_STATE, value: 0, state: ALL_ONES },
        }
    }

    fn write(&self, state: Flat, address: u8, value: u8) -> FlatAnswer {
        answered(state, |state| second::write(state, address, value))
    }

    fn read(&self, state: Flat, address: u8) -> FlatAnswer {
        answered(state, |state| second::read(state, address))
    }

    fn grant(&self, state: Flat, n: u16, mut picture: Part, mut table: Part) -> FlatAnswer {
        answered(state, |state| second::cycles(state, n, picture.bytes(), table.bytes()))
    }

    fn set_vb(&self, state: Flat, level: u8, mut picture: Part) -> FlatAnswer {
        answered(state, |state| second::set_vb(state, level != 0, picture.bytes()))
    }

    fn lpck(&self, state: Flat, h: u16, v: u16) -> FlatAnswer {
        answered(state, |state| second::lpck(state, h, v))
    }

    fn address(&self, state: Flat) -> FlatAddress {
        let Some(state) = state_of(&state) else {
            return FlatAddress { number: BAD_STATE, low: 0, high: 0, msl: 0 };
        };
        let answer = second::address(&state);
        FlatAddress { number: answer.number, low: answer.ck_low, high: answer.ck_high, msl: answer.msl }
    }

    fn write_pbm(&self, format: u8, mut picture: Part, mut buffer: Part) -> FlatPbm {
        of_format(format, |format| second::pbm_write(format, picture.bytes(), buffer.bytes()))
    }

    fn read_pbm(&self, format: u8, mut file: Part, mut picture: Part) -> FlatPbm {
        of_format(format, |format| second::pbm_read(format, file.bytes(), picture.bytes()))
    }
}

/// DAD while CK is low, DAD while CK is high, and MSL, of a state that is not refused.
pub fn outputs(state: &State) -> [u8; 3] {
    let answer = second::address(state);
    [answer.ck_low, answer.ck_high, answer.msl]
}

/// A flat value that stands for no state is refused before the call sees it. A refusal hands back what it was handed,
/// and an accepted call nothing left over.
fn answered(flat: Flat, call: impl FnOnce(&State) -> Answer) -> FlatAnswer {
    let Some(state) = state_of(&flat) else {
        return FlatAnswer { number: BAD_STATE, value: 0, state: flat };
    };
    let answer = call(&state);
    let next = if answer.number == 0 { flattened(&answer.state) } else { flat };
    FlatAnswer { number: answer.number, value: answer.value, state: next }
}

fn of_format(number: u8, call: impl FnOnce(Format) -> PbmAnswer) -> FlatPbm {
    let Some(format) = format_of(number) else {
        return FlatPbm { number: BAD_PICTURE, value: 0 };
    };
    let answer = call(format);
    FlatPbm { number: answer.number, value: answer.value }
}
