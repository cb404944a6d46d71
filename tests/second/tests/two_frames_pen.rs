//! The light pen beside a clear of two frames: the pen keeps its one.

mod common;

use common::clears::{checkered, untouched, whole};
use common::{Card, CLEARS, TWO_FRAMES};
use second::{ClearKind, Pen, Work};

/// The pen sequence and the clear, which go their own ways.
fn pen_and_clear(card: &Card) -> (Pen, Work) {
    (card.state.pen, card.state.work)
}

fn clear(kind: ClearKind, open: bool, frames_done: u8) -> Work {
    Work::Clear { kind, open, frames_done }
}

/// The sequence is over and the clear inside its second frame, whose end changes the picture.
fn ends_with_the_second_frame(mut card: Card, kind: ClearKind) {
    assert_eq!(pen_and_clear(&card), (Pen::Off, clear(kind, true, 1)));
    assert!(untouched(&card), "{kind:?}");
    card.vb(true);
    assert_eq!(pen_and_clear(&card), (Pen::Off, Work::Idle));
    assert!(whole(&card, 0x00), "{kind:?}");
}

// reading b.4: the pen has one frame, the first of the clear's two
#[test]
fn a_pen_sequence_ends_after_the_first_frame() {
    for (code, kind) in CLEARS {
        let mut card = checkered(TWO_FRAMES, 0x00);
        card.command(0x08).command(code).vb(true);
        assert_eq!(pen_and_clear(&card), (Pen::Waiting, clear(kind, false, 0)));
        card.vb(false);
        assert_eq!(pen_and_clear(&card), (Pen::Open, clear(kind, true, 0)));
        card.vb(true);
        assert_eq!(pen_and_clear(&card), (Pen::Off, clear(kind, false, 1)));
        card.vb(false).edge(10, 20);
        assert_eq!((card.state.xlp, card.state.ylp), (0, 0));
        ends_with_the_second_frame(card, kind);
    }
}

// reading b.4: an edge in the first frame ends the sequence and leaves the clear as it is
#[test]
fn an_edge_in_the_first_frame() {
    for (code, kind) in CLEARS {
        let mut card = checkered(TWO_FRAMES, 0x00);
        card.command(0x09).command(code).vb(true).vb(false).edge(10, 20);
        assert_eq!(pen_and_clear(&card), (Pen::Off, clear(kind, true, 0)));
        card.vb(true).edge(11, 21).vb(false).edge(12, 22);
        assert_eq!((card.state.xlp, card.state.ylp), (41, 20));
        ends_with_the_second_frame(card, kind);
    }
}

// readings b.1 and b.4: the frame the pen has open at the acceptance is none of the clear's
#[test]
fn a_clear_in_the_open_frame_of_the_pen() {
    for (code, kind) in CLEARS {
        let mut card = checkered(TWO_FRAMES, 0x00);
        card.command(0x08).vb(true).vb(false).command(code);
        assert_eq!(pen_and_clear(&card), (Pen::Open, clear(kind, false, 0)));
        card.vb(true);
        assert_eq!(pen_and_clear(&card), (Pen::Off, clear(kind, false, 0)));
        card.vb(false).vb(true).vb(false);
        ends_with_the_second_frame(card, kind);
    }
}

// readings 47 and b.4: 07 leaves the pen registers, their lowest bit and the sequence
#[test]
fn pen_through_07() {
    let mut card = checkered(TWO_FRAMES, 0x70);
    card.command(0x08).vb(true).vb(false).edge(10, 20).status();
    card.command(0x09).status();
    card.command(0x07).vb(true).vb(false);
    assert_eq!(card.status(), 0x00);
    assert_eq!(card.vb(true).status(), 0x03);
    assert_eq!(card.vb(false).status(), 0x01);
    assert_eq!(card.vb(true).status(), 0x07);
    assert_eq!(card.read(12), 41);
    assert_eq!(card.read(13), 20);
}

// reading b.4: the pen's flag comes a frame before that of the clear
#[test]
fn three_flags_at_two_rises() {
    for (code, _) in CLEARS.into_iter().filter(|row| row.0 != 7) {
        let mut card = Card::new(TWO_FRAMES);
        card.write(1, 0x70).command(0x09).command(code).vb(true);
        assert_eq!(card.status(), 0xE2, "{code:02X}");
        assert_eq!(card.vb(false).status(), 0x00);
        assert_eq!(card.vb(true).status(), 0xB3);
        assert_eq!(card.vb(false).status(), 0x01);
        assert_eq!(card.vb(true).status(), 0xE7);
        assert_eq!(card.status(), 0x07);
    }
}

// readings 36 and b.4: a pen sequence that waits for the second frame has its rise in common with it
#[test]
fn three_flags_at_the_second_rise() {
    let mut card = Card::new(TWO_FRAMES);
    card.write(1, 0x70).command(0x04).vb(true).vb(false).vb(true);
    assert_eq!(card.status(), 0xA3);
    // No command can be given to a busy processor, so the sequence is put into the state.
    card.state.pen = Pen::Waiting;
    assert_eq!(card.vb(false).status(), 0x00);
    assert_eq!(card.vb(true).status(), 0xF7);
}
