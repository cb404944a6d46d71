//! Refusal 1: each of its causes by itself in every call, and the near misses that are good.

mod common;

use common::{Card, CLEARS, NO_TIME};
use second::{address, cycles, lpck, read, set_vb, write, AddressAnswer, Answer, Flags};
use second::{Format, Pen, State, Work};

fn idle() -> State {
    Card::new(Format::Ef9366).state
}

fn running(code: u8, done: u16) -> State {
    State { work: Work::Steps { code, done }, ..idle() }
}

/// A clear as it may be met: of every kind, on every format, whatever frames are said to be over.
fn clears(open: bool, vb: bool) -> impl Iterator<Item = State> {
    let kinds = CLEARS.into_iter().map(|(_, kind)| kind);
    let works =
        kinds.flat_map(move |kind| [0, 1, 2, 255].map(|frames_done| Work::Clear { kind, open, frames_done }));
    works.flat_map(move |work| common::FORMATS.map(|format| State { format, work, vb, ..idle() }))
}

// readings 1, 2 and 22: every call gives 1, and nothing moves
fn assert_bad(name: &str, state: &State) {
    let refused = Answer { number: 1, value: 0, state: *state };
    for place in 0..16 {
        assert_eq!(write(state, place, 0x11), refused, "{name}: write {place:X}");
        assert_eq!(read(state, place), refused, "{name}: read {place:X}");
    }
    let mut lent = common::picture(state.format, 0x5A);
    for n in [0, 1, 65_535] {
        assert_eq!(cycles(state, n, &mut lent, &[0xFF; 480]), refused, "{name}: grant {n}");
    }
    for level in [false, true] {
        assert_eq!(set_vb(state, level, &mut lent), refused, "{name}: VB {level}");
    }
    assert!(lent.iter().all(|&byte| byte == 0x5A), "{name}: picture");
    assert_eq!(lpck(state, 10, 20), refused, "{name}: LPCK");
    let nothing = AddressAnswer { number: 1, ck_low: 0, ck_high: 0, msl: 0 };
    assert_eq!(address(state), nothing, "{name}: address");
}

fn assert_good(name: &str, state: &State) {
    let lent = &mut common::picture(state.format, 0x5A);
    let busy = state.work != Work::Idle;
    assert_eq!(write(state, 1, 0x11).number, if busy { 6 } else { 0 }, "{name}: write");
    for place in [0, 1, 2, 3, 5, 7, 8, 9, 10, 11, 12, 13] {
        assert_eq!(read(state, place).number, 0, "{name}: read {place:X}");
    }
    for n in [0, 1, 65_535] {
        assert_eq!(cycles(state, n, lent, &[0xFF; 480]).number, 0, "{name}: grant {n}");
    }
    for level in [false, true] {
        assert_eq!(set_vb(state, level, lent).number, 0, "{name}: VB {level}");
    }
    assert_eq!(lpck(state, 10, 20).number, 0, "{name}: LPCK");
    assert_eq!(address(state).number, 0, "{name}: address");
}

#[test]
fn registers_out_of_range() {
    let causes = [
        ("X 4096", State { x: 4096, ..idle() }),
        ("X 65535", State { x: 65_535, ..idle() }),
        ("Y 4096", State { y: 4096, ..idle() }),
        ("Y 65535", State { y: 65_535, ..idle() }),
        ("CTRL1 128", State { ctrl1: 128, ..idle() }),
        ("CTRL1 255", State { ctrl1: 255, ..idle() }),
        ("CTRL2 16", State { ctrl2: 16, ..idle() }),
        ("CTRL2 255", State { ctrl2: 255, ..idle() }),
    ];
    for format in common::FORMATS {
        for (name, state) in &causes {
            assert_bad(name, &State { format, ..*state });
        }
    }
}

// reading 9
#[test]
fn bit_1_of_xlp() {
    for xlp in 0..=255u8 {
        let state = State { xlp, ..idle() };
        if [2, 3].contains(&(xlp % 4)) {
            assert_bad("XLP", &state);
        } else {
            assert_good("XLP", &state);
        }
    }
}

// reading 6: of all 256 codes, those that use write cycles are good
#[test]
fn running_codes() {
    for code in NO_TIME {
        for done in [0, 1, 65_535] {
            assert_bad("a command that takes no time", &running(code, done));
        }
    }
    for code in [0x0A, 0x0B, 0x0F].into_iter().chain(0x10..=0xFF) {
        assert_good("a command that takes cycles", &running(code, 0));
    }
}

/// A clear has no cycle count for a progress to be below, so it cannot run as steps.
#[test]
fn clears_do_not_run_as_steps() {
    for (code, _) in CLEARS {
        for done in [0, 1, 65_535] {
            assert_bad("a clear with a progress", &running(code, done));
        }
    }
}

/// Request c: tilt is a cause of 1 no more, neither to a running character nor to any other state.
#[test]
fn tilt_high_in_good_states() {
    for ctrl2 in 0..16 {
        assert_good("idle", &State { ctrl2, ..idle() });
        for code in [0x0A, 0x0B, 0x0F].into_iter().chain(0x10..=0xFF) {
            assert_good("a command that takes cycles", &State { ctrl2, ..running(code, 0) });
        }
        for code in [0x0A, 0x0B].into_iter().chain(0x20..=0x7F) {
            assert_good("part of a character", &State { ctrl2, ..running(code, 3) });
        }
    }
    for clear in clears(false, false) {
        assert_good("clear", &State { ctrl2: 15, ..clear });
    }
}

// reading 8: the count follows from the present DELTAX, DELTAY and CSIZE, and not from CTRL2
#[test]
fn progress_not_below_the_count() {
    let rows: [(&str, u8, u8, u8, u8, u16); 23] = [
        // name, code, DELTAX, DELTAY, CSIZE, cycles in all
        ("11 by 5, 2", 0x11, 5, 2, 0x11, 6),
        ("13 by 2, 5", 0x13, 2, 5, 0x11, 6),
        ("11 by 0, 0", 0x11, 0, 0, 0x11, 1),
        ("11 by 255, 1", 0x11, 255, 1, 0x11, 256),
        ("17 by 1, 255", 0x17, 1, 255, 0x11, 256),
        ("10 leaves DELTAY out", 0x10, 2, 200, 0x11, 3),
        ("16 leaves DELTAY out", 0x16, 2, 200, 0x11, 3),
        ("12 leaves DELTAX out", 0x12, 200, 2, 0x11, 3),
        ("14 leaves DELTAX out", 0x14, 200, 2, 0x11, 3),
        ("18 takes the larger", 0x18, 1, 9, 0x11, 10),
        ("1C takes the larger", 0x1C, 9, 1, 0x11, 10),
        ("1F takes the larger", 0x1F, 9, 1, 0x11, 10),
        ("E9 ignores the deltas", 0xE9, 200, 200, 0x11, 4),
        ("98 leaves its Y out", 0x98, 200, 200, 0x11, 1),
        ("F8 leaves its Y out", 0xF8, 200, 200, 0x11, 4),
        ("80", 0x80, 200, 200, 0x11, 1),
        ("41 small", 0x41, 200, 200, 0x11, 48),
        ("41 large", 0x41, 0, 0, 0x00, 12_288),
        ("7F at 2, 3", 0x7F, 0, 0, 0x23, 288),
        ("0A at 16, 1", 0x0A, 0, 0, 0x01, 768),
        ("0B at 2, 3", 0x0B, 0, 0, 0x23, 96),
        ("0B large", 0x0B, 0, 0, 0x00, 4_096),
        ("0F", 0x0F, 200, 200, 0x00, 1),
    ];
    for (name, code, deltax, deltay, csize, count) in rows {
        for ctrl2 in [0, 4, 8, 12] {
            let at = |done| State { ctrl2, deltax, deltay, csize, ..running(code, done) };
            assert_good(name, &at(0));
            assert_good(name, &at(count - 1));
            assert_bad(name, &at(count));
            assert_bad(name, &at(count + 1));
            assert_bad(name, &at(65_535));
        }
    }
}

// reading b.5: in the first frame of a clear and in its second
#[test]
fn vb_high_in_an_open_frame_of_a_clear() {
    clears(true, true).for_each(|state| assert_bad("clear", &state));
}

// reading b.3: no number of frames is a cause of 1
#[test]
fn clears_in_good_states() {
    clears(true, false).for_each(|state| assert_good("clear, VB low", &state));
    clears(false, true).for_each(|state| assert_good("clear waiting, VB high", &state));
    clears(false, false).for_each(|state| assert_good("clear waiting, VB low", &state));
}

#[test]
fn vb_high_in_an_open_frame_of_the_pen() {
    for work in [Work::Idle, Work::Steps { code: 0xE9, done: 2 }] {
        let pen = |pen, vb| State { work, pen, vb, ..idle() };
        assert_bad("pen", &pen(Pen::Open, true));
        assert_good("pen open, VB low", &pen(Pen::Open, false));
        assert_good("pen waiting, VB high", &pen(Pen::Waiting, true));
        assert_good("pen off, VB high", &pen(Pen::Off, true));
    }
}

// reading 5: each open frame counts by itself
#[test]
fn one_frame_open_and_the_other_not() {
    for pen in [Pen::Off, Pen::Waiting] {
        clears(true, true).for_each(|state| assert_bad("clear open", &State { pen, ..state }));
        clears(true, false).for_each(|state| assert_good("clear open", &State { pen, ..state }));
    }
    let pen = Pen::Open;
    clears(false, true).for_each(|state| assert_bad("pen open", &State { pen, ..state }));
    clears(false, false).for_each(|state| assert_good("pen open", &State { pen, ..state }));
}

// reading 11: the other fields have no impossible value
#[test]
fn every_register_at_its_highest() {
    let state = State {
        ctrl1: 127,
        ctrl2: 15,
        csize: 255,
        deltax: 255,
        deltay: 255,
        x: 4095,
        y: 4095,
        xlp: 0xFD,
        ylp: 255,
        vb: true,
        flags: Flags { pen_end: true, vb_rise: true, ready: true },
        ..idle()
    };
    for format in common::FORMATS {
        assert_good("highest", &State { format, ..state });
    }
}

// reading 3: X, Y and progress need not fit together, since the start is worked out from them
#[test]
fn any_place_goes_with_any_progress() {
    for (x, y) in [(0, 0), (4095, 4095), (7, 4000)] {
        for done in 0..6 {
            assert_good("vector", &State { x, y, deltax: 5, deltay: 2, ..running(0x17, done) });
        }
        for ctrl2 in [0, 4, 8, 12] {
            for done in 0..48 {
                assert_good("character", &State { x, y, ctrl2, ..running(0x41, done) });
            }
        }
    }
}

// reading 2: flags and the XLP bit stay when the read is refused
#[test]
fn refused_reads_clear_nothing() {
    let flags = Flags { pen_end: true, vb_rise: true, ready: true };
    let state = State { flags, xlp: 41, x: 4096, ..idle() };
    for place in [0, 12, 13] {
        assert_eq!(read(&state, place).state, state);
    }
}
