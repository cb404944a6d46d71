//! Arguments of calls: addresses, values, lengths lent, cycles granted, pen edges.

use super::{codes, count, states};
use crate::call::Call;
use crate::random::Random;
use crate::scene::{LONGEST_PICTURE, LONGEST_TABLE};
use second::{Format, State};

pub const TABLE_BYTES: usize = 480;

/// How often a memory of a wrong length is lent.
#[derive(Clone, Copy)]
pub struct WrongLengths {
    pub percent: u64,
}

/// A register write, most often to an address that can be written.
pub fn write(random: &mut Random) -> Call {
    let address = match random.below(10) {
        0 => any_address(random),
        1..=3 => 0,
        _ => random.pick(&[1, 2, 3, 5, 7, 8, 9, 10, 11]),
    };
    Call::Write { address, value: value(random, address) }
}

pub fn command(random: &mut Random) -> Call {
    let value = if random.percent(10) { random.byte() } else { codes::command(random) };
    Call::Write { address: 0, value }
}

/// A value that suits its register, or any byte: unused bits must drop.
fn value(random: &mut Random, address: u8) -> u8 {
    if random.percent(20) {
        return random.byte();
    }
    match address {
        0 => codes::command(random),
        1 => states::ctrl1(random),
        2 => random.byte() & 0x0F,
        3 => states::csize(random),
        5 | 7 => states::delta(random),
        8 | 10 => random.pick(&[0, 0, 0, 1, 1, 2, 15, 255]),
        _ => random.byte(),
    }
}

pub fn read(random: &mut Random) -> Call {
    let address = match random.below(8) {
        0 => any_address(random),
        1 | 2 => 0,
        3 => random.pick(&[12, 13]),
        _ => random.among(0, 13) as u8,
    };
    Call::Read { address }
}

fn any_address(random: &mut Random) -> u8 {
    match random.below(4) {
        0 => random.byte(),
        1 => random.pick(&[16, 17, 32, 128, 255]),
        _ => random.among(0, 15) as u8,
    }
}

pub fn grant(random: &mut Random, state: &State, wrong: WrongLengths) -> Call {
    let rest = count::rest(state);
    let n = match random.below(10) {
        0 => 0,
        1 | 2 => 1,
        3 => random.among(2, 9),
        4 | 5 => rest,
        6 => rest.saturating_sub(1),
        7 => rest.saturating_add(1),
        8 => 65_535,
        _ => random.word() >> random.below(16),
    };
    let picture = length(random, wrong, bytes(state.format), LONGEST_PICTURE);
    let table = length(random, wrong, TABLE_BYTES, LONGEST_TABLE);
    Call::Grant { n, picture, table }
}

/// The other level more often than the present one, as that changes nothing.
pub fn set_vb(random: &mut Random, state: &State, wrong: WrongLengths) -> Call {
    let level = if random.percent(75) { !state.vb } else { state.vb };
    // Any byte but 0 is high.
    let high = if random.percent(20) { random.among(1, 255) as u8 } else { 1 };
    let picture = length(random, wrong, bytes(state.format), LONGEST_PICTURE);
    Call::SetVb { level: if level { high } else { 0 }, picture }
}

pub fn lpck(random: &mut Random) -> Call {
    let h = if random.percent(10) { random.pick(&[64, 65, 256, 4096, 65_535]) } else { random.among(0, 63) };
    let v = if random.percent(10) { random.pick(&[256, 257, 512, 65_535]) } else { random.among(0, 255) };
    Call::Lpck { h, v }
}

/// The right length, or by chance one short, one long, none, another format's, or any.
pub fn length(random: &mut Random, wrong: WrongLengths, right: usize, longest: usize) -> usize {
    if !random.percent(wrong.percent) {
        return right;
    }
    match random.below(6) {
        0 | 1 => right - 1,
        2 => right + 1,
        3 => 0,
        4 => random.pick(&states::FORMATS.map(bytes)).min(longest),
        _ => random.below(longest as u64 + 1) as usize,
    }
}

pub fn bytes(format: Format) -> usize {
    match format {
        Format::Ef9366 => 16_384,
        Format::Ef9365High => 32_768,
        Format::Ef9365Low => 8_192,
    }
}

/// The bytes of a picture written as PBM.
pub fn file_bytes(format: Format) -> usize {
    match format {
        Format::Ef9366 => 133_131,
        Format::Ef9365High => 266_251,
        Format::Ef9365Low => 66_571,
    }
}
