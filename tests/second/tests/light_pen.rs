//! The light pen sequence.

mod common;

use common::{Card, FORMATS, NO_FLAGS};
use second::{lpck, Flags, Format, Pen, State};

fn sequence(format: Format) -> Card {
    let mut card = Card::new(format);
    card.write(1, 0x10).command(0x08);
    card
}

fn in_open_frame(format: Format) -> Card {
    let mut card = sequence(format);
    card.vb(true).vb(false);
    card
}

// reading 29: bit 0 is low from the acceptance
#[test]
fn status_bit_0_through_a_sequence() {
    for format in FORMATS {
        let mut card = sequence(format);
        assert_eq!(card.status(), 0x04);
        assert_eq!(card.vb(true).status(), 0x06);
        assert_eq!(card.vb(false).status(), 0x04);
        assert_eq!(card.edge(10, 20).status(), 0x95);
        assert_eq!(card.status(), 0x05);
    }
}

// readings 11 and 42: the same 4h + 1 and v in every format
#[test]
fn what_an_edge_loads() {
    for format in FORMATS {
        for (h, v, xlp, ylp) in [(0, 0, 1, 0), (10, 20, 41, 20), (63, 255, 253, 255), (32, 128, 129, 128)] {
            let mut card = in_open_frame(format);
            card.edge(h, v);
            assert_eq!((card.state.xlp, card.state.ylp), (xlp, ylp));
            assert_eq!(card.state.pen, Pen::Off);
        }
    }
}

#[test]
fn an_edge_changes_nothing_else() {
    let card = in_open_frame(Format::Ef9366);
    let answer = lpck(&card.state, 10, 20);
    let flags = Flags { pen_end: true, ..NO_FLAGS };
    assert_eq!(answer.state, State { xlp: 41, ylp: 20, pen: Pen::Off, flags, ..card.state });
}

// readings 53 and b.4: edges outside the open frame do nothing, with VB low too
#[test]
fn edges_at_other_times() {
    for format in FORMATS {
        let mut card = Card::new(format);
        let before = card.state;
        assert_eq!(card.edge(10, 20).state, before);

        let mut card = sequence(format);
        let before = card.state;
        assert_eq!(card.edge(10, 20).state, before);
        let before = card.vb(true).state;
        assert_eq!(card.edge(10, 20).state, before);

        let mut card = in_open_frame(format);
        let before = card.edge(10, 20).state;
        assert_eq!(card.edge(30, 40).state, before);
        let before = card.vb(true).state;
        assert_eq!(card.edge(30, 40).state, before);
        let before = card.vb(false).state;
        assert_eq!(card.edge(30, 40).state, before);
    }
}

// reading 53: a VB rise before the frame opens ends nothing
#[test]
fn a_rise_before_the_frame() {
    for format in FORMATS {
        let mut card = sequence(format);
        card.vb(true);
        assert_eq!(card.state.pen, Pen::Waiting);
        assert_eq!(card.state.flags, NO_FLAGS);
    }
}

#[test]
fn a_sequence_begun_with_vb_high() {
    for format in FORMATS {
        let mut card = Card::new(format);
        card.vb(true).command(0x09);
        assert_eq!(card.vb(false).state.pen, Pen::Open);
    }
}

// readings 35, 41 and b.4: the rise loads nothing, keeps XLP's lowest bit, and is an end all the same
#[test]
fn a_frame_without_an_edge() {
    for format in FORMATS {
        let mut card = in_open_frame(format);
        card.edge(10, 20);
        card.status();
        card.command(0x08).vb(true).vb(false);
        assert_eq!(card.vb(true).status(), 0x97);
        assert_eq!((card.state.xlp, card.state.ylp, card.state.pen), (41, 20, Pen::Off));
    }
}

#[test]
fn no_pen_flag_without_its_mask() {
    let mut card = in_open_frame(Format::Ef9366);
    assert_eq!(card.write(1, 0x6F).edge(10, 20).status(), 0x05);
    let mut card = in_open_frame(Format::Ef9366);
    assert_eq!(card.write(1, 0x4F).vb(true).status(), 0x07);
}

// reading 34: a second 08 starts afresh, without a flag
#[test]
fn a_second_pen_command() {
    for second in [0x08, 0x09] {
        let mut card = in_open_frame(Format::Ef9366);
        card.state.xlp = 41;
        card.state.ylp = 20;
        let before = card.state;
        card.command(second);
        assert_eq!(card.state, State { pen: Pen::Waiting, ..before });
        assert_eq!(card.status(), 0x04);
        card.edge(30, 40);
        assert_eq!((card.state.xlp, card.state.ylp, card.state.pen), (41, 20, Pen::Waiting));
        card.vb(true);
        assert_eq!(card.state.pen, Pen::Waiting);
        card.vb(false).edge(30, 40);
        assert_eq!((card.state.xlp, card.state.ylp, card.state.pen), (121, 40, Pen::Off));
    }
}

// reading 41: 08 leaves the lowest bit of an unread XLP
#[test]
fn pen_command_leaves_xlp() {
    let mut card = in_open_frame(Format::Ef9366);
    card.edge(10, 20).command(0x08);
    assert_eq!(card.read(12), 41);
}

// reading 40: the read still shows the bit; either register clears it
#[test]
fn lowest_bit_of_xlp() {
    let mut card = in_open_frame(Format::Ef9366);
    card.edge(10, 20);
    assert_eq!(card.read(13), 20);
    assert_eq!(card.read(12), 40);
    assert_eq!(card.read(12), 40);
    assert_eq!(card.read(13), 20);
}

#[test]
fn reading_status_leaves_xlp() {
    let mut card = in_open_frame(Format::Ef9366);
    card.edge(10, 20).status();
    assert_eq!(card.read(12), 41);
}

// reading 21: a refused edge does not end the sequence
#[test]
fn a_refused_edge_in_the_open_frame() {
    let mut card = in_open_frame(Format::Ef9366);
    for (h, v) in [(64, 20), (10, 256)] {
        let answer = lpck(&card.state, h, v);
        assert_eq!((answer.number, answer.value, answer.state), (8, 0, card.state));
    }
    card.edge(10, 20);
    assert_eq!((card.state.xlp, card.state.ylp), (41, 20));
}

#[test]
fn edges_never_touch_the_picture_or_the_running_command() {
    let mut card = in_open_frame(Format::Ef9366);
    card.write(1, 0x13).deltas(5, 2).command(0x11).grant(2);
    let before = card.clone();
    card.edge(10, 20);
    assert_eq!(card.state.work, before.state.work);
    assert_eq!(card.place(), before.place());
    assert_eq!(card.picture, before.picture);
}
