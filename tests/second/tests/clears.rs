//! 04, 06, 07 and 0C over the frames of VB, on the formats where one frame is all they take.

mod common;

use common::clears::{checkered, left_by, untouched, whole};
use common::{Card, CLEARS, ONE_FRAME};
use second::{Format, Pen, State, Work};

/// With VB high the clear still waits, however it came there, and takes V 0, V 1.
fn waits_for_its_frame(accept: fn(&mut Card, u8)) {
    for format in ONE_FRAME {
        for (code, kind) in CLEARS {
            for ctrl1 in [0x00, 0x01, 0x02, 0x03] {
                let mut card = checkered(format, ctrl1);
                accept(&mut card, code);
                assert_eq!(card.state.work, Work::Clear { kind, open: false, frames_done: 0 });
                assert!(untouched(&card));
                card.vb(false);
                assert_eq!(card.state.work, Work::Clear { kind, open: true, frames_done: 0 });
                assert!(untouched(&card));
                assert_eq!(card.vb(true).state.work, Work::Idle);
                assert!(whole(&card, left_by(code, ctrl1)), "{format:?} {code:02X} {ctrl1:02X}");
            }
        }
    }
}

// reading 45: a frame under way does not count, it takes V 1, V 0, V 1
#[test]
fn vb_low_at_acceptance() {
    waits_for_its_frame(|card, code| {
        card.command(code).vb(true);
    });
}

// reading 45: with VB high it takes V 0, V 1
#[test]
fn vb_high_at_acceptance() {
    waits_for_its_frame(|card, code| {
        card.vb(true).command(code);
    });
}

/// Every clear on every format where it takes one frame, over the checkered picture.
fn each_clear(ctrl1: u8, check: fn(Card, u8)) {
    for format in ONE_FRAME {
        for (code, _) in CLEARS {
            check(checkered(format, ctrl1), code);
        }
    }
}

#[test]
fn ready_through_a_clear() {
    each_clear(0x03, |mut card, code| {
        assert_eq!(card.command(code).status(), 0x01);
        assert_eq!(card.vb(true).status(), 0x03);
        assert_eq!(card.vb(false).status(), 0x01);
        assert_eq!(card.vb(true).status(), 0x07);
    });
}

// reading 31 for 07; the others set their flag with the mask of the moment
#[test]
fn ready_flag_of_a_clear() {
    each_clear(0x42, |mut card, code| {
        let ended = card.command(code).vb(true).vb(false).vb(true).status();
        assert_eq!(ended, if code == 0x07 { 0x07 } else { 0xC7 }, "{code:02X}");
    });
}

// reading 50: cycles are neither used nor saved up
#[test]
fn cycles_during_a_clear() {
    each_clear(0x03, |mut card, code| {
        card.command(code);
        for level in [true, false] {
            assert_eq!(card.grant(65_535), 0);
            card.vb(level);
            let before = card.state;
            assert_eq!(card.grant(100), 0);
            assert_eq!(card.state, before);
            assert!(untouched(&card));
        }
        card.vb(true);
        assert_eq!(card.grant(100), 0);
        card.command(0x11);
        assert_eq!(card.state.work, Work::Steps { code: 0x11, done: 0 });
    });
}

#[test]
fn a_clear_changes_no_register_at_its_end() {
    for format in ONE_FRAME {
        for (code, _) in CLEARS {
            let mut card = Card::at(format, 600, 700);
            card.write(2, 0x0B).write(3, 0x45).deltas(6, 7).command(code).vb(true).vb(false);
            let before = card.state;
            card.vb(true);
            assert_eq!(card.state, State { work: Work::Idle, vb: true, ..before });
        }
    }
}

#[test]
fn later_frames_change_nothing_more() {
    for format in ONE_FRAME {
        let mut card = checkered(format, 0x03);
        card.command(0x04).vb(true).vb(false).vb(true).run(0x11);
        card.vb(false).vb(true).vb(false).vb(true);
        assert_eq!(card.dots(), [(0, 0)]);
    }
}

#[test]
fn a_second_clear_needs_a_frame_of_its_own() {
    for format in ONE_FRAME {
        let mut card = checkered(format, 0x03);
        card.command(0x0C).vb(true).vb(false).vb(true);
        assert!(whole(&card, 0xFF));
        card.command(0x04);
        assert!(whole(&card, 0xFF));
        card.vb(false);
        assert!(whole(&card, 0xFF));
        card.vb(true);
        assert!(whole(&card, 0x00));
    }
}

// reading 54: one VB fall opens both frames
#[test]
fn clear_and_pen_share_a_frame() {
    for format in ONE_FRAME {
        for (code, kind) in CLEARS {
            let mut card = checkered(format, 0x00);
            card.command(0x08).command(code).vb(true);
            assert_eq!(card.state.pen, Pen::Waiting);
            card.vb(false);
            assert_eq!(card.state.pen, Pen::Open);
            assert_eq!(card.state.work, Work::Clear { kind, open: true, frames_done: 0 });
            card.edge(10, 20);
            assert_eq!(card.state.pen, Pen::Off);
            assert_eq!(card.state.work, Work::Clear { kind, open: true, frames_done: 0 });
            assert_eq!((card.state.xlp, card.state.ylp), (41, 20));
            card.vb(true);
            assert!(whole(&card, 0x00));
        }
    }
}

// reading 47: 07 leaves the pen registers, their lowest bit and the sequence
#[test]
fn pen_through_07() {
    let mut card = checkered(Format::Ef9366, 0x00);
    card.command(0x08).vb(true).vb(false).edge(10, 20);
    card.command(0x09).command(0x07).vb(true).vb(false);
    assert_eq!(card.state.pen, Pen::Open);
    card.vb(true);
    assert_eq!(card.state.pen, Pen::Off);
    assert_eq!(card.read(12), 41);
    assert_eq!(card.read(13), 20);
}
