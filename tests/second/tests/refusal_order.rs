//! The lowest number goes first, for every two refusals that can apply together.

mod common;

use common::numbers::{busy, cycles_number, idle, lpck_number, read_number, vb_number, write_number, TABLE};
use common::random::Random;
use common::{is_good, picture_bytes};
use second::{State, Work};

/// A state that row 1 refuses, made from any other.
fn spoilt(state: State) -> State {
    State { xlp: 2, ..state }
}

// reading 15 and row 1 against each of the others
#[test]
fn bad_state_goes_first() {
    let (idle, busy) = (spoilt(idle()), spoilt(busy()));
    for address in [4, 6, 14, 15, 16, 255] {
        assert_eq!(write_number(&idle, address, 0), 1);
        assert_eq!(write_number(&busy, address, 0), 1);
        assert_eq!(read_number(&idle, address), 1);
        assert_eq!(read_number(&busy, address), 1);
    }
    for address in [12, 13] {
        assert_eq!(write_number(&idle, address, 0), 1);
        assert_eq!(write_number(&busy, address, 0), 1);
    }
    assert_eq!(write_number(&busy, 1, 0), 1);
    assert_eq!(write_number(&State { ctrl2: 4, ..idle }, 0, 0x41), 1);
    assert_eq!(write_number(&State { ctrl2: 4, ..busy }, 0, 0x41), 1);
    assert_eq!(cycles_number(&idle, 1, 16_383, &TABLE), 1);
    assert_eq!(cycles_number(&idle, 1, 16_384, &[0; 479]), 1);
    assert_eq!(cycles_number(&busy, 1, 16_383, &[0; 479]), 1);
    assert_eq!(vb_number(&idle, true, 16_383), 1);
    assert_eq!(vb_number(&idle, false, 16_383), 1);
    assert_eq!(lpck_number(&idle, 64, 0), 1);
    assert_eq!(lpck_number(&idle, 0, 256), 1);
}

// reading 15
#[test]
fn picture_goes_before_table() {
    for state in [idle(), busy()] {
        assert_eq!(cycles_number(&state, 1, 16_383, &[0; 479]), 2);
        assert_eq!(cycles_number(&state, 0, 0, &[]), 2);
        assert_eq!(cycles_number(&state, 1, 16_384, &[0; 479]), 3);
    }
}

// reading 16
#[test]
fn no_register_goes_before_busy() {
    for address in [4, 6, 14, 15, 16, 20, 100, 255] {
        assert_eq!(write_number(&busy(), address, 0x11), 4);
        assert_eq!(read_number(&busy(), address), 4);
    }
}

// reading 17
#[test]
fn read_only_goes_before_busy() {
    for address in [12, 13] {
        assert_eq!(write_number(&busy(), address, 0x11), 5);
    }
}

/// 41 while busy and tilted: 6, whether a vector runs or a tilted character.
#[test]
fn busy_and_tilted_is_busy() {
    let vector = State { ctrl2: 4, ..busy() };
    let character = State { work: Work::Steps { code: 0x41, done: 3 }, ..vector };
    for code in [0x0A, 0x0B, 0x20, 0x41, 0x7F] {
        assert_eq!(write_number(&vector, 0, code), 6);
        assert_eq!(write_number(&character, 0, code), 6);
    }
}

/// The lowest of all the rows that apply, each row asked by itself.
#[test]
fn lowest_of_those_that_apply_for_random_input() {
    let mut random = Random(0x9365_9366);
    for _ in 0..200_000 {
        let state = random.any_state();
        let (address, value) = (random.below(18) as u8, random.byte());
        let reserved = [4, 6, 14, 15].contains(&address) || address > 15;
        let pen_register = address == 12 || address == 13;
        let busy = state.work != Work::Idle;
        let bad = !is_good(&state);
        let rows = [(bad, 1), (reserved, 4), (pen_register, 5), (busy && !reserved && !pen_register, 6)];
        assert_eq!(write_number(&state, address, value), first(&rows), "{state:?} {address} {value:02X}");
        assert_eq!(read_number(&state, address), first(&[(bad, 1), (reserved, 4)]), "{state:?} {address}");
        let (h, v) = (random.below(70) as u16, random.below(300) as u16);
        assert_eq!(lpck_number(&state, h, v), first(&[(bad, 1), (h > 63 || v > 255, 8)]));
    }
}

fn first(rising: &[(bool, u8)]) -> u8 {
    rising.iter().find(|row| row.0).map_or(0, |row| row.1)
}

#[test]
fn lowest_of_those_that_apply_for_random_pictures() {
    let mut random = Random(0x0365_0366);
    for _ in 0..2_000 {
        let state = random.any_state();
        let bad = !is_good(&state);
        let bytes = random.pick(&[8_192, 16_384, 32_768, 16_383]);
        let table = vec![0; random.pick(&[480, 480, 160])];
        let wrong = bytes != picture_bytes(state.format);
        let expected = first(&[(bad, 1), (wrong, 2), (table.len() != 480, 3)]);
        assert_eq!(cycles_number(&state, random.below(20) as u16, bytes, &table), expected);
        assert_eq!(vb_number(&state, random.flag(), bytes), first(&[(bad, 1), (wrong, 2)]));
    }
}
