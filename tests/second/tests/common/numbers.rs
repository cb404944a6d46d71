//! The number each call answers; a refusal must leave everything as it was.

use super::Card;
use second::{cycles, lpck, read, set_vb, write, Format, State};

pub const TABLE: [u8; 480] = [0; 480];

pub fn idle() -> State {
    Card::new(Format::Ef9366).state
}

/// A vector, three cycles into six.
pub fn busy() -> State {
    let mut card = Card::new(Format::Ef9366);
    card.deltas(5, 2).command(0x11).grant(3);
    card.state
}

pub fn write_number(state: &State, address: u8, value: u8) -> u8 {
    let answer = write(state, address, value);
    if answer.number != 0 {
        assert_eq!((answer.value, answer.state), (0, *state));
    }
    answer.number
}

pub fn read_number(state: &State, address: u8) -> u8 {
    let answer = read(state, address);
    if answer.number != 0 {
        assert_eq!((answer.value, answer.state), (0, *state));
    }
    answer.number
}

pub fn cycles_number(state: &State, n: u16, bytes: usize, table: &[u8]) -> u8 {
    let mut lent = vec![0x5A; bytes];
    let answer = cycles(state, n, &mut lent, table);
    if answer.number != 0 {
        assert_eq!((answer.value, answer.state), (0, *state));
        assert!(lent.iter().all(|&byte| byte == 0x5A));
    }
    answer.number
}

pub fn vb_number(state: &State, level: bool, bytes: usize) -> u8 {
    let mut lent = vec![0x5A; bytes];
    let answer = set_vb(state, level, &mut lent);
    if answer.number != 0 {
        assert_eq!((answer.value, answer.state), (0, *state));
        assert!(lent.iter().all(|&byte| byte == 0x5A));
    }
    answer.number
}

pub fn lpck_number(state: &State, h: u16, v: u16) -> u8 {
    let answer = lpck(state, h, v);
    assert_eq!(answer.value, 0);
    if answer.number != 0 {
        assert_eq!(answer.state, *state);
    }
    answer.number
}
