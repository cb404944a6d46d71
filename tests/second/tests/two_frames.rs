//! 04, 06, 07 and 0C with FMAT high, where they take two frames.

mod common;

use common::clears::{checkered, left_by, untouched, whole};
use common::numbers::{vb_number, write_number};
use common::{Card, CLEARS, NO_TIME, TWO_FRAMES};
use second::{State, Work};

/// How a clear stands, and the level of VB that comes next.
struct Moment {
    open: bool,
    frames_done: u8,
    level: bool,
}

/// From an acceptance with VB low to the end.
const FROM_LOW: [Moment; 5] = [
    Moment { open: false, frames_done: 0, level: true },
    Moment { open: false, frames_done: 0, level: false },
    Moment { open: true, frames_done: 0, level: true },
    Moment { open: false, frames_done: 1, level: false },
    Moment { open: true, frames_done: 1, level: true },
];

/// With VB high there is no frame under way to be passed over.
fn moments(vb: bool) -> &'static [Moment] {
    if vb {
        &FROM_LOW[1..]
    } else {
        &FROM_LOW
    }
}

/// At each moment something may be tried that must change neither the state nor when the clear ends.
fn takes_two_frames(vb: bool, attempt: fn(&mut Card)) {
    for (code, kind) in CLEARS {
        for ctrl1 in [0x00, 0x01, 0x02, 0x03] {
            let mut card = checkered(TWO_FRAMES, ctrl1);
            card.write(2, 0x0B).write(3, 0x45).deltas(6, 7).write(8, 2).write(10, 3);
            let accepted = card.vb(vb).command(code).state;
            for &Moment { open, frames_done, level } in moments(vb) {
                let work = Work::Clear { kind, open, frames_done };
                let expected = State { work, vb: !level, ..accepted };
                assert_eq!(card.state, expected, "{code:02X}");
                attempt(&mut card);
                assert_eq!(card.state, expected, "{code:02X}");
                assert!(untouched(&card), "{code:02X} {frames_done}");
                card.vb(level);
            }
            assert_eq!(card.state, State { work: Work::Idle, vb: true, ..accepted }, "{code:02X}");
            assert!(whole(&card, left_by(code, ctrl1)), "{code:02X} {ctrl1:02X}");
        }
    }
}

// readings b.1 and b.2: a frame under way does not count, it takes V 1, V 0, V 1, V 0, V 1
#[test]
fn vb_low_at_acceptance() {
    takes_two_frames(false, |_| {});
}

// readings b.1 and b.2: with VB high it takes V 0, V 1, V 0, V 1
#[test]
fn vb_high_at_acceptance() {
    takes_two_frames(true, |_| {});
}

fn attempted(attempt: fn(&mut Card)) {
    takes_two_frames(false, attempt);
    takes_two_frames(true, attempt);
}

// reading 37: the present level neither begins a frame nor ends one
#[test]
fn vb_at_its_present_level() {
    attempted(|card| {
        let level = card.state.vb;
        card.vb(level).vb(level).vb(level);
    });
}

// reading 50: cycles are not used between the frames either
#[test]
fn grants_use_no_cycle() {
    attempted(|card| {
        for n in [0, 1, 100, 65_535] {
            assert_eq!(card.grant(n), 0);
        }
    });
}

#[test]
fn reads_do_not_change_when() {
    attempted(|card| {
        for address in [0, 1, 2, 3, 5, 7, 8, 9, 10, 11, 12, 13] {
            card.read(address);
        }
    });
}

#[test]
fn edges_do_not_change_when() {
    attempted(|card| {
        card.edge(0, 0).edge(10, 20).edge(63, 255);
    });
}

// reading 18: the processor is busy until the second frame is over
#[test]
fn writes_are_refused_until_the_end() {
    attempted(|card| {
        for address in [0, 1, 2, 3, 5, 7, 8, 9, 10, 11] {
            assert_eq!(write_number(&card.state, address, 0x11), 6);
        }
        for code in NO_TIME.into_iter().chain(CLEARS.map(|(code, _)| code)) {
            assert_eq!(write_number(&card.state, 0, code), 6, "{code:02X}");
        }
    });
}

// reading 13: a refused VB call neither begins a frame nor ends one
#[test]
fn refused_vb_calls_do_not_change_when() {
    attempted(|card| {
        for bytes in [0, 8_192, 16_384, 32_767, 32_769] {
            assert_eq!(vb_number(&card.state, !card.state.vb, bytes), 2);
        }
    });
}

/// STATUS after the acceptance and after each V of 1 0 1 0 1.
fn statuses(code: u8, ctrl1: u8) -> [u16; 6] {
    let mut card = checkered(TWO_FRAMES, ctrl1);
    let accepted = card.command(code).status();
    let [a, b, c, d, e] = [true, false, true, false, true].map(|level| card.vb(level).status());
    [accepted, a, b, c, d, e]
}

#[test]
fn ready_rises_at_the_end_of_the_second_frame() {
    for (code, _) in CLEARS {
        assert_eq!(statuses(code, 0x03), [0x01, 0x03, 0x01, 0x03, 0x01, 0x07], "{code:02X}");
    }
}

// reading 31: after 07 CTRL1 is 0, so no flag is set
#[test]
fn ready_flag_at_the_end_of_the_second_frame_alone() {
    for (code, _) in CLEARS {
        let ended = if code == 0x07 { 0x07 } else { 0xC7 };
        assert_eq!(statuses(code, 0x42), [0x01, 0x03, 0x01, 0x03, 0x01, ended], "{code:02X}");
    }
}

#[test]
fn vb_flag_at_every_rise() {
    for (code, _) in CLEARS.into_iter().filter(|row| row.0 != 7) {
        assert_eq!(statuses(code, 0x22), [0x01, 0xA3, 0x01, 0xA3, 0x01, 0xA7], "{code:02X}");
        assert_eq!(statuses(code, 0x62), [0x01, 0xA3, 0x01, 0xA3, 0x01, 0xE7], "{code:02X}");
    }
}

/// A clear whose first frame is over, with another CTRL1 put into the state from then on.
fn with_another_ctrl1(code: u8, before: u8, after: u8) -> Card {
    let mut card = checkered(TWO_FRAMES, before);
    card.command(code).vb(true).vb(false).vb(true);
    card.state.ctrl1 = after;
    card.vb(false).vb(true);
    card
}

// reading 48: 0C goes by CTRL1 bit 1 as it is at the end
#[test]
fn bit_1_at_the_end_of_the_second_frame() {
    for (before, after, byte) in [(0x02, 0x00, 0x00), (0x00, 0x02, 0xFF), (0x03, 0x01, 0x00)] {
        assert!(whole(&with_another_ctrl1(0x0C, before, after), byte), "{before:02X} {after:02X}");
        assert!(whole(&with_another_ctrl1(0x04, before, after), 0x00), "{before:02X} {after:02X}");
    }
}

// reading 32: the mask is looked at when ready rises
#[test]
fn ready_mask_at_the_end_of_the_second_frame() {
    for (code, _) in CLEARS {
        assert_eq!(with_another_ctrl1(code, 0x00, 0x40).status(), 0xC7, "{code:02X}");
        assert_eq!(with_another_ctrl1(code, 0x40, 0x00).status(), 0x07, "{code:02X}");
    }
}

// reading b.3: no frame is over when the next clear is accepted
#[test]
fn a_second_clear_needs_two_frames_of_its_own() {
    let mut card = checkered(TWO_FRAMES, 0x03);
    card.command(0x0C).vb(true).vb(false).vb(true).vb(false).vb(true);
    assert!(whole(&card, 0xFF));
    card.command(0x04);
    for level in [false, true, false] {
        card.vb(level);
        assert!(whole(&card, 0xFF));
        assert_ne!(card.state.work, Work::Idle);
    }
    assert_eq!(card.vb(true).state.work, Work::Idle);
    assert!(whole(&card, 0x00));
}

#[test]
fn later_frames_change_nothing_more() {
    let mut card = checkered(TWO_FRAMES, 0x03);
    card.command(0x04).vb(true).vb(false).vb(true).vb(false).vb(true).run(0x11);
    card.vb(false).vb(true).vb(false).vb(true).vb(false).vb(true);
    assert_eq!(card.dots(), [(0, 0)]);
}
