//! STATUS and the three flags.

mod common;

use common::{Card, CLEARS, FORMATS, NO_FLAGS, NO_TIME, ONE_FRAME, TWO_FRAMES};
use second::{fresh, read, ClearKind, Flags, Format, Pen, State, Work};

fn status(state: State) -> u16 {
    read(&state, 0).value
}

fn clearing(kind: ClearKind, open: bool, frames_done: u8) -> Work {
    Work::Clear { kind, open, frames_done }
}

#[test]
fn each_bit_by_itself() {
    let idle = fresh(Format::Ef9366);
    let fmat_high = fresh(TWO_FRAMES);
    let none = NO_FLAGS;
    let rows = [
        (idle, 0x05),
        (State { pen: Pen::Waiting, ..idle }, 0x04),
        (State { pen: Pen::Open, ..idle }, 0x04),
        (State { vb: true, ..idle }, 0x07),
        (State { work: Work::Steps { code: 0xE9, done: 0 }, ..idle }, 0x01),
        (State { work: Work::Steps { code: 0x41, done: 47 }, ..idle }, 0x01),
        (State { work: clearing(ClearKind::Screen, false, 0), ..idle }, 0x01),
        (State { work: clearing(ClearKind::Fill, true, 0), ..idle }, 0x01),
        (State { work: clearing(ClearKind::Screen, false, 1), ..fmat_high }, 0x01),
        (State { work: clearing(ClearKind::Fill, true, 1), ..fmat_high }, 0x01),
        (State { x: 512, ..idle }, 0x0D),
        (State { flags: Flags { pen_end: true, ..none }, ..idle }, 0x95),
        (State { flags: Flags { vb_rise: true, ..none }, ..idle }, 0xA5),
        (State { flags: Flags { ready: true, ..none }, ..idle }, 0xC5),
        (State { flags: Flags { pen_end: true, vb_rise: true, ready: true }, ..idle }, 0xF5),
        (State { ctrl1: 0x70, ..idle }, 0x05),
    ];
    for (state, expected) in rows {
        assert_eq!(status(state), expected, "{state:?}");
    }
}

// reading 27: what is unused depends on the format
#[test]
fn bit_3_at_the_edges_of_each_window() {
    let rows = [
        (Format::Ef9366, 511, 255, 0x05),
        (Format::Ef9366, 512, 0, 0x0D),
        (Format::Ef9366, 0, 256, 0x0D),
        (Format::Ef9366, 1024, 0, 0x0D),
        (Format::Ef9366, 2048, 0, 0x0D),
        (Format::Ef9366, 0, 2048, 0x0D),
        (Format::Ef9365High, 511, 511, 0x05),
        (Format::Ef9365High, 0, 256, 0x05),
        (Format::Ef9365High, 512, 0, 0x0D),
        (Format::Ef9365High, 0, 512, 0x0D),
        (Format::Ef9365Low, 255, 255, 0x05),
        (Format::Ef9365Low, 256, 0, 0x0D),
        (Format::Ef9365Low, 0, 256, 0x0D),
        (Format::Ef9365Low, 4095, 4095, 0x0D),
    ];
    for (format, x, y, expected) in rows {
        for ctrl1 in [0, 8] {
            assert_eq!(status(State { x, y, ctrl1, ..fresh(format) }), expected, "{format:?} {x} {y}");
        }
    }
}

// reading 28: X and Y are the registers, so bit 3 speaks of the next place
#[test]
fn bit_3_between_cycles() {
    let mut card = Card::at(Format::Ef9366, 510, 0);
    card.deltas(3, 0).command(0x10);
    assert_eq!(card.status(), 0x01);
    card.grant(1);
    assert_eq!(card.status(), 0x01);
    card.grant(1);
    assert_eq!(card.status(), 0x09);
    card.grant(2);
    assert_eq!(card.status(), 0x0D);
}

// reading 30: ready falls and rises within the call
#[test]
fn no_time_commands_and_the_ready_flag() {
    for code in NO_TIME {
        let bit_0 = if code == 8 || code == 9 { 0 } else { 1 };
        let mut card = Card::new(Format::Ef9366);
        assert_eq!(card.write(1, 0x40).command(code).status(), 0xC4 | bit_0, "{code:02X}");
        assert_eq!(card.status(), 0x04 | bit_0);
        let mut card = Card::new(Format::Ef9366);
        assert_eq!(card.write(1, 0x3F).command(code).status(), 0x04 | bit_0, "{code:02X} unmasked");
    }
}

#[test]
fn register_writes_set_no_flag() {
    let mut card = Card::new(Format::Ef9366);
    card.write(1, 0x70).write(2, 0).write(3, 0).deltas(1, 1).write(8, 0).write(1, 0x70);
    assert_eq!(card.state.flags, NO_FLAGS);
}

// reading 59: with the last cycle, not before and not after
#[test]
fn ready_rises_with_the_last_cycle() {
    for (code, count) in [(0x11, 6), (0x0F, 1), (0xE9, 4), (0x41, 48), (0x0A, 48), (0x0B, 16)] {
        let mut card = Card::new(Format::Ef9366);
        card.write(1, 0x43).deltas(5, 2).command(code);
        assert_eq!(card.grant(count - 1), count - 1);
        assert_eq!(card.state.flags, NO_FLAGS);
        assert_eq!(card.status(), 0x01);
        assert_eq!(card.grant(1), 1);
        assert_eq!(card.status(), 0xC5);
        assert_eq!(card.grant(1), 0);
        assert_eq!(card.status(), 0x05);
    }
}

#[test]
fn no_ready_flag_without_its_mask() {
    let mut card = Card::new(Format::Ef9366);
    card.write(1, 0x3F).deltas(5, 2).run(0x11);
    assert_eq!(card.status(), 0x05);
}

#[test]
fn vb_flag_at_a_rise_alone() {
    let mut card = Card::new(Format::Ef9366);
    assert_eq!(card.write(1, 0x20).vb(true).status(), 0xA7);
    assert_eq!(card.status(), 0x07);
    assert_eq!(card.vb(false).status(), 0x05);
    assert_eq!(card.write(1, 0x5F).vb(true).status(), 0x07);
}

// readings 37 and 43: the present level changes nothing
#[test]
fn vb_at_its_present_level() {
    for format in FORMATS {
        for code in [0x04, 0x08] {
            for level in [false, true] {
                let mut card = Card::new(format);
                card.write(1, 0x70).vb(level).command(code);
                card.picture.fill(0x5A);
                let before = card.clone();
                card.vb(level).vb(level);
                assert_eq!(card.state, before.state);
                assert_eq!(card.picture, before.picture);
            }
        }
    }
}

// reading 31: CTRL1 is 0 from the acceptance of 07, so nothing after it sets a flag
#[test]
fn flags_through_07() {
    let mut card = Card::new(Format::Ef9366);
    card.write(1, 0x70).command(0x08).command(0x07);
    assert_eq!(card.vb(true).status(), 0xC2);
    card.vb(false).vb(true);
    assert_eq!(card.state.pen, Pen::Off);
    assert_eq!(card.status(), 0x07);
}

// reading 31: flags set before 07 stay and show
#[test]
fn flags_set_before_07_stay() {
    let mut card = Card::new(Format::Ef9366);
    card.state.flags = Flags { pen_end: true, vb_rise: true, ready: false };
    card.command(0x07);
    assert_eq!(card.state.flags, Flags { pen_end: true, vb_rise: true, ready: false });
    assert_eq!(card.vb(true).vb(false).vb(true).status(), 0xB7);
}

// reading 32: no flag for a rise that is past
#[test]
fn mask_made_high_after_the_rise() {
    let mut card = Card::new(Format::Ef9366);
    card.command(0x08).vb(true).vb(false).edge(1, 1).vb(true);
    assert_eq!(card.write(1, 0x73).status(), 0x07);
}

// reading 32: a sequence begun before the mask was made high sets its flag
#[test]
fn mask_made_high_before_the_rise() {
    let mut card = Card::new(Format::Ef9366);
    card.command(0x08).vb(true).vb(false).write(1, 0x10).edge(1, 1);
    assert_eq!(card.status(), 0x95);

    let mut card = Card::new(Format::Ef9366);
    card.write(1, 0x10).command(0x08).vb(true).vb(false).write(1, 0x60).edge(1, 1);
    assert_eq!(card.status(), 0x05);
}

// reading 32: a command that ends under the mask sets the flag, whatever the mask was before
#[test]
fn mask_of_the_last_cycle() {
    for (before, at_the_end, expected) in [(0x03, 0x43, 0xC5), (0x43, 0x03, 0x05)] {
        let mut card = Card::new(Format::Ef9366);
        card.write(1, before).deltas(5, 2).command(0x11).grant(5);
        card.state.ctrl1 = at_the_end;
        card.grant(1);
        assert_eq!(card.status(), expected);
    }
}

// reading 33: a mask made low later hides nothing
#[test]
fn mask_made_low_after_the_rise() {
    let mut card = Card::new(Format::Ef9366);
    card.write(1, 0x70).command(0x08).vb(true).vb(false).edge(1, 1).write(1, 0);
    assert_eq!(card.status(), 0xF5);
    assert_eq!(card.status(), 0x05);
}

// reading 36: one rise ends a clear and a pen frame and is itself a flag
#[test]
fn three_flags_at_one_rise() {
    for format in ONE_FRAME {
        for (code, _) in CLEARS.into_iter().filter(|row| row.0 != 7) {
            let mut card = Card::new(format);
            card.write(1, 0x70).command(0x09).command(code).vb(true);
            assert_eq!(card.status(), 0xE2, "{code:02X}");
            assert_eq!(card.vb(false).status(), 0x00);
            assert_eq!(card.vb(true).status(), 0xF7);
            assert_eq!(card.status(), 0x07);
        }
    }
}

#[test]
fn each_mask_lets_its_own_flag_through() {
    for (mask, expected) in [(0x10, 0x97), (0x20, 0xA7), (0x40, 0xC7), (0x00, 0x07)] {
        let mut card = Card::new(Format::Ef9366);
        card.command(0x08).write(1, mask).command(0x04).vb(true).vb(false);
        card.state.flags = NO_FLAGS;
        assert_eq!(card.vb(true).status(), expected, "{mask:02X}");
    }
}

// reading 38: the value still has the flags; bits 0 to 3 are not touched by the read
#[test]
fn reading_status_clears_the_flags_together() {
    for format in FORMATS {
        let flags = Flags { pen_end: true, vb_rise: true, ready: true };
        let state = State { flags, vb: true, x: 600, pen: Pen::Waiting, ..fresh(format) };
        let first = read(&state, 0);
        assert_eq!((first.value, first.state), (0xFE, State { flags: NO_FLAGS, ..state }));
        assert_eq!(read(&first.state, 0).value, 0x0E);
    }
}

// reading 33: neither the mask nor a later rise without it takes a flag away
#[test]
fn a_flag_stays_until_read() {
    let mut card = Card::new(Format::Ef9366);
    card.write(1, 0x70).command(0x08).vb(true).vb(false).edge(1, 1);
    let all = Flags { pen_end: true, vb_rise: true, ready: true };
    assert_eq!(card.state.flags, all);
    card.write(1, 0).command(0x08).vb(true).vb(false).edge(2, 2).run(0x11);
    assert_eq!(card.state.flags, all);
    card.command(0x04).vb(true).vb(false).vb(true);
    assert_eq!(card.status(), 0xF7);
}
