//! The address outputs in the three formats.

mod common;

use common::{size, Card, FORMATS};
use second::{address, fresh, write, Format, State, Work};

fn outputs(format: Format, x: u16, y: u16) -> (u8, u8, u8) {
    let answer = address(&State { x, y, ..fresh(format) });
    assert_eq!(answer.number, 0);
    (answer.ck_low, answer.ck_high, answer.msl)
}

#[test]
fn origin() {
    assert_eq!(outputs(Format::Ef9366, 0, 0), (0, 0, 8));
    assert_eq!(outputs(Format::Ef9365High, 0, 0), (0, 0, 0));
    assert_eq!(outputs(Format::Ef9365Low, 0, 0), (0, 0, 14));
}

// reading 83: the bits above the window do not appear
#[test]
fn each_bit_of_x_on_its_line() {
    let nine =
        [(0, 1), (0, 2), (0, 4), (32, 0), (16, 0), (8, 0), (4, 0), (2, 0), (1, 0), (0, 0), (0, 0), (0, 0)];
    for (place, (low, msl)) in nine.into_iter().enumerate() {
        assert_eq!(outputs(Format::Ef9366, 1 << place, 0), (low, 0, msl + 8), "X{place}");
        assert_eq!(outputs(Format::Ef9365High, 1 << place, 0), (low, 0, msl), "X{place}");
    }
    let eight = [
        (0, 13),
        (0, 11),
        (32, 14),
        (16, 14),
        (8, 14),
        (4, 14),
        (2, 14),
        (1, 14),
        (0, 14),
        (0, 14),
        (0, 14),
        (0, 14),
    ];
    for (place, (low, msl)) in eight.into_iter().enumerate() {
        assert_eq!(outputs(Format::Ef9365Low, 1 << place, 0), (low, 0, msl), "X{place}");
    }
}

#[test]
fn each_bit_of_y_on_its_line() {
    let short =
        [(64, 0), (0, 64), (0, 32), (0, 16), (0, 8), (0, 4), (0, 2), (0, 1), (0, 0), (0, 0), (0, 0), (0, 0)];
    for (place, (low, high)) in short.into_iter().enumerate() {
        assert_eq!(outputs(Format::Ef9366, 0, 1 << place), (low, high, 8), "Y{place}");
        assert_eq!(outputs(Format::Ef9365Low, 0, 1 << place), (low, high, 14), "Y{place}");
    }
    let tall = [
        (0, 64, 0),
        (64, 0, 0),
        (0, 0, 8),
        (0, 32, 0),
        (0, 16, 0),
        (0, 8, 0),
        (0, 4, 0),
        (0, 2, 0),
        (0, 1, 0),
        (0, 0, 0),
        (0, 0, 0),
        (0, 0, 0),
    ];
    for (place, expected) in tall.into_iter().enumerate() {
        assert_eq!(outputs(Format::Ef9365High, 0, 1 << place), expected, "Y{place}");
    }
}

// reading 86: three numbers
#[test]
fn places_worked_out_by_hand() {
    assert_eq!(outputs(Format::Ef9366, 300, 100), (41, 38, 12));
    assert_eq!(outputs(Format::Ef9365High, 300, 357), (41, 77, 12));
    assert_eq!(outputs(Format::Ef9365High, 300, 130), (105, 2, 4));
    assert_eq!(outputs(Format::Ef9365Low, 200, 77), (83, 50, 14));
    assert_eq!(outputs(Format::Ef9366, 511, 255), (127, 127, 15));
    assert_eq!(outputs(Format::Ef9365High, 511, 511), (127, 127, 15));
    assert_eq!(outputs(Format::Ef9365Low, 255, 255), (127, 127, 7));
}

// reading 85
#[test]
fn one_msl_line_low() {
    for (x, msl) in [(200, 14), (201, 13), (202, 11), (203, 7), (4095, 7)] {
        assert_eq!(outputs(Format::Ef9365Low, x, 77).2, msl);
    }
}

#[test]
fn no_two_positions_in_the_window_share_all_three() {
    for format in FORMATS {
        let (width, height) = size(format);
        let mut taken = vec![false; 1 << 18];
        for y in 0..height {
            for x in 0..width {
                let (low, high, msl) = outputs(format, x as u16, y as u16);
                assert!(low < 128 && high < 128 && msl < 16);
                let key = usize::from(low) << 11 | usize::from(high) << 4 | usize::from(msl);
                assert!(!taken[key], "{format:?} ({x}, {y})");
                taken[key] = true;
            }
        }
        assert_eq!(taken.iter().filter(|&&seen| seen).count(), width * height);
    }
}

// reading 83
#[test]
fn outside_as_inside_without_the_upper_bits() {
    for format in FORMATS {
        let (width, height) = size(format);
        for (x, y) in [(300, 100), (4095, 4095), (511, 300), (1000, 2000), (2048, 0), (0, 256)] {
            let inside = outputs(format, x % width as u16, y % height as u16);
            assert_eq!(outputs(format, x, y), inside, "{format:?} ({x}, {y})");
        }
    }
}

// reading 84: while a command runs, the next place
#[test]
fn while_a_command_runs() {
    let mut card = Card::at(Format::Ef9366, 298, 100);
    card.deltas(5, 0).command(0x10).grant(2);
    assert_eq!(card.state.work, Work::Steps { code: 0x10, done: 2 });
    let answer = address(&card.state);
    assert_eq!((answer.number, answer.ck_low, answer.ck_high, answer.msl), (0, 41, 38, 12));
}

#[test]
fn nothing_but_format_and_place_matters() {
    let state = State {
        ctrl1: 0x7F,
        ctrl2: 0x0F,
        csize: 0x99,
        deltax: 1,
        deltay: 2,
        vb: true,
        x: 300,
        y: 100,
        ..fresh(Format::Ef9366)
    };
    let begun = write(&state, 0, 0x04).state;
    for state in [state, begun] {
        let answer = address(&state);
        assert_eq!((answer.ck_low, answer.ck_high, answer.msl), (41, 38, 12));
    }
}

// reading 22: in FMAT high only the number tells a refusal from the origin
#[test]
fn refused() {
    let answer = address(&State { x: 4096, ..fresh(Format::Ef9365High) });
    assert_eq!((answer.number, answer.ck_low, answer.ck_high, answer.msl), (1, 0, 0, 0));
}
