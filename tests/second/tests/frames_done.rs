//! Numbers of frames that make no sense where they stand: no refusal, and not looked at.

mod common;

use common::numbers::{cycles_number, lpck_number, read_number, vb_number, write_number, TABLE};
use common::{picture, picture_bytes, Card, CLEARS, FORMATS, ONE_FRAME, TWO_FRAMES};
use second::{address, cycles, lpck, read, set_vb, Answer, ClearKind, Format, Pen, State, Work};

/// More than any clear can have behind it while it runs.
const STRAY: [u8; 5] = [2, 3, 128, 254, 255];

/// A running clear in a good state, all but its number of frames.
fn clears(format: Format) -> Vec<(State, ClearKind, bool)> {
    let mut clears = Vec::new();
    for (_, kind) in CLEARS {
        for (open, vb, pen) in [
            (false, false, Pen::Off),
            (false, false, Pen::Open),
            (false, true, Pen::Waiting),
            (true, false, Pen::Off),
            (true, false, Pen::Open),
        ] {
            let state = State { vb, pen, ctrl1: 0x72, xlp: 41, ..Card::at(format, 600, 700).state };
            clears.push((state, kind, open));
        }
    }
    clears
}

fn with(clear: (State, ClearKind, bool), frames_done: u8) -> State {
    let (state, kind, open) = clear;
    State { work: Work::Clear { kind, open, frames_done }, ..state }
}

/// What every call that a running clear lets through hands back, and the pictures left by them.
fn accepted(state: &State) -> Vec<(Answer, Vec<u8>)> {
    let mut all = Vec::new();
    for place in [0, 1, 2, 3, 5, 7, 8, 9, 10, 11, 12, 13] {
        all.push((read(state, place), Vec::new()));
    }
    all.push((lpck(state, 10, 20), Vec::new()));
    for n in [0, 1, 65_535] {
        let mut lent = picture(state.format, 0x5A);
        all.push((cycles(state, n, &mut lent, &TABLE), lent));
    }
    for level in [false, true] {
        let mut lent = picture(state.format, 0x5A);
        all.push((set_vb(state, level, &mut lent), lent));
    }
    assert!(all.iter().all(|(answer, _)| answer.number == 0), "{state:?}");
    all
}

// reading b.3: where one frame is all, none can be over, and each call says so
#[test]
fn ignored_where_a_clear_takes_one_frame() {
    for format in ONE_FRAME {
        for clear in clears(format) {
            for stray in [1].into_iter().chain(STRAY) {
                let answers = accepted(&with(clear, stray));
                for (answer, _) in &answers {
                    let work = answer.state.work;
                    let nought = matches!(work, Work::Idle | Work::Clear { frames_done: 0, .. });
                    assert!(nought, "{stray} led to {work:?}");
                }
                assert!(answers == accepted(&with(clear, 0)), "{clear:?} {stray}");
                assert_eq!(address(&with(clear, stray)), address(&with(clear, 0)));
            }
        }
    }
}

// reading b.3: where two are taken, any number but 0 means that the first is over
#[test]
fn one_frame_over_where_a_clear_takes_two() {
    for clear in clears(TWO_FRAMES) {
        for stray in STRAY {
            assert!(accepted(&with(clear, stray)) == accepted(&with(clear, 1)), "{clear:?} {stray}");
            assert_eq!(address(&with(clear, stray)), address(&with(clear, 1)));
        }
    }
}

/// The same once more in levels of VB: how many a clear with VB high takes to its end.
#[test]
fn levels_to_the_end() {
    for (format, frames_done, levels) in [
        (Format::Ef9366, 0, 2),
        (Format::Ef9366, 1, 2),
        (Format::Ef9366, 255, 2),
        (Format::Ef9365Low, 0, 2),
        (Format::Ef9365Low, 1, 2),
        (Format::Ef9365Low, 255, 2),
        (Format::Ef9365High, 0, 4),
        (Format::Ef9365High, 1, 2),
        (Format::Ef9365High, 2, 2),
        (Format::Ef9365High, 255, 2),
    ] {
        for (_, kind) in CLEARS {
            let mut card = Card::new(format);
            card.vb(true).state.work = Work::Clear { kind, open: false, frames_done };
            let taken = (1..=8).find(|at| card.vb(at % 2 == 0).state.work == Work::Idle);
            assert_eq!(taken, Some(levels), "{format:?} {frames_done}");
        }
    }
}

/// The helpers compare the state handed back with the one handed in.
#[test]
fn refused_calls_hand_the_number_back_as_it_came() {
    for format in FORMATS {
        let right = picture_bytes(format);
        for clear in clears(format) {
            for frames_done in [0, 1].into_iter().chain(STRAY) {
                let state = with(clear, frames_done);
                for (place, number) in [(0, 6), (1, 6), (4, 4), (12, 5), (15, 4), (255, 4)] {
                    assert_eq!(write_number(&state, place, 0x04), number);
                }
                assert_eq!(read_number(&state, 4), 4);
                assert_eq!(lpck_number(&state, 64, 0), 8);
                assert_eq!(vb_number(&state, !state.vb, right - 1), 2);
                assert_eq!(cycles_number(&state, 1, right - 1, &TABLE), 2);
                assert_eq!(cycles_number(&state, 1, right, &[]), 3);
            }
        }
    }
}
