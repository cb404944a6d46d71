//! Commands that take no time, 0F, and what holds for every grant of cycles.

mod common;

use common::Card;
use second::{fresh, write, Flags, Format, Pen, State, Work};

/// A state with every register away from its fresh value.
fn full() -> State {
    State {
        ctrl1: 0x0F,
        ctrl2: 0x0B,
        csize: 0x23,
        deltax: 7,
        deltay: 9,
        x: 0x123,
        y: 0x456,
        xlp: 41,
        ylp: 20,
        pen: Pen::Open,
        flags: Flags { pen_end: true, vb_rise: true, ready: false },
        ..fresh(Format::Ef9366)
    }
}

fn after(state: State, code: u8) -> State {
    let answer = write(&state, 0, code);
    assert_eq!((answer.number, answer.value), (0, 0));
    answer.state
}

#[test]
fn commands_that_take_no_time() {
    for ctrl1 in [0x00, 0x0C, 0x03, 0x3F] {
        let state = State { ctrl1, ..full() };
        assert_eq!(after(state, 0x00), State { ctrl1: ctrl1 | 2, ..state });
        assert_eq!(after(state, 0x01), State { ctrl1: ctrl1 & 0x7D, ..state });
        assert_eq!(after(state, 0x02), State { ctrl1: ctrl1 | 1, ..state });
        assert_eq!(after(state, 0x03), State { ctrl1: ctrl1 & 0x7E, ..state });
        assert_eq!(after(state, 0x05), State { x: 0, y: 0, ..state });
        assert_eq!(after(state, 0x0D), State { x: 0, ..state });
        assert_eq!(after(state, 0x0E), State { y: 0, ..state });
    }
}

// reading 52: 08 and 09 do the same
#[test]
fn pen_commands_are_alike() {
    for pen in [Pen::Off, Pen::Waiting, Pen::Open] {
        let state = State { pen, ..full() };
        for code in [0x08, 0x09] {
            assert_eq!(after(state, code), State { pen: Pen::Waiting, ..state });
        }
    }
}

// reading 30: with the mask high the ready flag is all that differs
#[test]
fn no_time_commands_under_the_ready_mask() {
    for code in common::NO_TIME {
        let plain = after(full(), code);
        let masked = after(State { ctrl1: full().ctrl1 | 0x40, ..full() }, code);
        let flags = Flags { ready: true, ..plain.flags };
        assert_eq!(masked, State { ctrl1: plain.ctrl1 | 0x40, flags, ..plain }, "{code:02X}");
    }
}

#[test]
fn commands_that_take_cycles_begin_without_moving() {
    for code in [0x0A, 0x0B, 0x0F].into_iter().chain(0x10..=0xFF) {
        for ctrl2 in 0..16 {
            let state = State { ctrl2, ..full() };
            let work = Work::Steps { code, done: 0 };
            assert_eq!(after(state, code), State { work, ..state }, "{code:02X} {ctrl2}");
        }
    }
}

// readings 46, 47 and b.3: registers change on acceptance, and no frame is over
#[test]
fn clears_begin_with_their_registers_changed() {
    for format in common::FORMATS {
        let full = State { format, ..full() };
        for (code, kind) in common::CLEARS {
            let work = Work::Clear { kind, open: false, frames_done: 0 };
            let begun = State { work, ..full };
            let expected = match code {
                0x06 => State { x: 0, y: 0, ..begun },
                0x07 => State { ctrl1: 0, ctrl2: 0, csize: 0x11, deltax: 0, deltay: 0, x: 0, y: 0, ..begun },
                _ => begun,
            };
            assert_eq!(after(full, code), expected, "{code:02X}");
            assert!(after(State { vb: true, pen: Pen::Waiting, ..full }, code).vb);
        }
    }
}

// reading 46: a refused 07 changes nothing
#[test]
fn refused_07_changes_nothing() {
    let busy = State { work: Work::Steps { code: 0x11, done: 3 }, ..full() };
    let answer = write(&busy, 0, 0x07);
    assert_eq!((answer.number, answer.value, answer.state), (6, 0, busy));
}

// reading 51: 0F is busy till one cycle is granted, and has no dot
#[test]
fn command_0f() {
    for byte in [0x00, 0xFF] {
        for ctrl1 in [0x00, 0x01, 0x03] {
            let mut card = Card::at(Format::Ef9366, 3, 3);
            card.picture.fill(byte);
            card.write(1, ctrl1 | 0x40).command(0x0F);
            assert_eq!(card.status(), 0x01);
            assert_eq!(card.grant(0), 0);
            assert_eq!(card.status(), 0x01);
            assert_eq!(card.grant(5), 1);
            assert_eq!(card.status(), 0xC5);
            assert_eq!(card.place(), (3, 3));
            assert!(card.picture.iter().all(|&seen| seen == byte));
        }
    }
}

// reading 58: cycles granted to an idle processor are lost, and so are those left over
#[test]
fn left_over_cycles_are_lost() {
    let mut card = Card::new(Format::Ef9366);
    assert_eq!(card.grant(65_535), 0);
    card.deltas(5, 2).command(0x11);
    assert_eq!(card.grant(0), 0);
    assert_eq!(card.state.work, Work::Steps { code: 0x11, done: 0 });
    assert_eq!(card.dots(), []);
    assert_eq!(card.grant(100), 6);
    card.command(0x11);
    assert_eq!(card.state.work, Work::Steps { code: 0x11, done: 0 });
    assert_eq!(card.dots().len(), 6);
}

#[test]
fn value_is_the_smaller_of_granted_and_left() {
    for granted in 0..10 {
        let mut card = Card::new(Format::Ef9366);
        card.deltas(5, 2).command(0x11);
        assert_eq!(card.grant(granted), granted.min(6));
        assert_eq!(card.dots().len(), usize::from(granted.min(6)));
    }
}

// reading 59: a grant of exactly those left ends the command
#[test]
fn the_last_cycle_ends_the_command() {
    let mut card = Card::new(Format::Ef9366);
    card.deltas(5, 2).command(0x11);
    card.grant(5);
    assert_eq!(card.state.work, Work::Steps { code: 0x11, done: 5 });
    card.grant(1);
    assert_eq!(card.state.work, Work::Idle);
}

// reading 19: drawing goes on while a pen sequence is under way
#[test]
fn drawing_during_a_pen_sequence() {
    let mut card = Card::new(Format::Ef9366);
    card.command(0x08).deltas(2, 0).command(0x10);
    assert_eq!(card.grant(1), 1);
    card.vb(true).vb(false).edge(10, 20);
    assert_eq!(card.grant(9), 2);
    assert_eq!(card.dots(), [(0, 0), (1, 0), (2, 0)]);
    assert_eq!((card.state.xlp, card.state.ylp, card.state.pen), (41, 20, Pen::Off));
}
