//! Characters in sight of the window, and grants that draw some of one: inside, cut by an edge, and where X and Y step
//! around.

use super::arguments::{bytes, TABLE_BYTES};
use super::codes::{self, Class};
use super::count;
use super::states::{near, registers, settled};
use crate::call::Call;
use crate::formula::{window, DOWN};
use crate::random::Random;
use second::{Format, State, Work};

/// A good state in which a character or a block runs, and a grant of cycles to it.
pub fn granted(random: &mut Random) -> (State, Call) {
    let state = in_sight(random);
    let rest = count::rest(&state);
    let n = match random.below(4) {
        0 => random.among(1, rest),
        1 => 65_535,
        _ => rest,
    };
    (state, Call::Grant { n, picture: bytes(state.format), table: TABLE_BYTES })
}

fn in_sight(random: &mut Random) -> State {
    let registers = registers(random);
    let code = code(random);
    let count = count::cycles(&registers, code).expect("a command that uses write cycles");
    let done = if random.flag() { 0 } else { random.among(0, count - 1) };
    let (x, y) = place_in_sight(random, registers.format);
    settled(State { ctrl1: registers.ctrl1 | DOWN, x, y, work: Work::Steps { code, done }, ..registers })
}

/// 0A and 0B each as often as all of 20 to 7F.
pub fn code(random: &mut Random) -> u8 {
    let class = random.pick(&[Class::Character, Class::Block, Class::Block]);
    codes::in_class(random, class)
}

pub fn place_in_sight(random: &mut Random, format: Format) -> (u16, u16) {
    let (width, height) = window(format);
    (along(random, width), along(random, height))
}

/// In the middle of the window, or close to an edge of it.
fn along(random: &mut Random, extent: i32) -> u16 {
    let around = random.pick(&[0, extent / 2, extent]);
    near(random, around as u16, &[4, 40])
}
