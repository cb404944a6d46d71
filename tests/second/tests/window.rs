//! Pen and eraser, and the edges of the window, cyclic or not.

mod common;

use common::Card;
use second::Format;

#[test]
fn pen_and_eraser_up_and_down() {
    // Bit 0 up: nothing; down with bit 1: lights; down without: darkens.
    for (ctrl1, background, expected) in [
        (0, 0x00, 0x00),
        (2, 0x00, 0x00),
        (0, 0xFF, 0xFF),
        (2, 0xFF, 0xFF),
        (1, 0x00, 0x00),
        (3, 0xFF, 0xFF),
        (3, 0x00, 0x0F),
        (1, 0xFF, 0xF0),
    ] {
        let mut card = Card::new(Format::Ef9366);
        card.picture.fill(background);
        assert_eq!(card.write(1, ctrl1).deltas(3, 0).run(0x10), 4);
        assert_eq!(card.place(), (3, 0));
        assert_eq!(card.picture[0], expected, "{ctrl1} {background:02X}");
        assert!(card.picture[1..].iter().all(|&byte| byte == background));
    }
}

// reading 68: outside, the cycle is used and all 12 bits are kept
#[test]
fn outside_each_edge_of_each_window() {
    let rows = [(Format::Ef9366, 511, 255), (Format::Ef9365High, 511, 511), (Format::Ef9365Low, 255, 255)];
    for (format, last_x, last_y) in rows {
        let mut card = Card::at(format, last_x, last_y);
        assert_eq!(card.deltas(2, 2).run(0x11), 3);
        assert_eq!(card.dots(), [(last_x, last_y)]);
        assert_eq!(card.place(), (last_x + 2, last_y + 2));

        let mut card = Card::at(format, 0, 0);
        assert_eq!(card.deltas(2, 2).run(0x17), 3);
        assert_eq!(card.dots(), [(0, 0)]);
        assert_eq!(card.place(), (4094, 4094));
    }
}

// reading 69: on a cyclic screen the dot comes round, X and Y are not reduced
#[test]
fn around_each_edge_of_each_window() {
    let rows = [(Format::Ef9366, 511, 255), (Format::Ef9365High, 511, 511), (Format::Ef9365Low, 255, 255)];
    for (format, last_x, last_y) in rows {
        let mut card = Card::at(format, last_x, last_y);
        assert_eq!(card.write(1, 0x0B).deltas(2, 2).run(0x11), 3);
        assert_eq!(card.dots(), [(0, 0), (1, 1), (last_x, last_y)]);
        assert_eq!(card.place(), (last_x + 2, last_y + 2));

        let mut card = Card::at(format, 0, 0);
        assert_eq!(card.write(1, 0x0B).deltas(2, 2).run(0x17), 3);
        assert_eq!(card.dots(), [(0, 0), (last_x - 1, last_y - 1), (last_x, last_y)]);
        assert_eq!(card.place(), (4094, 4094));
    }
}

// reading 70: far outside, every upper bit is ignored
#[test]
fn cyclic_far_outside() {
    let mut card = Card::at(Format::Ef9366, 0xE05, 0xF03);
    card.write(1, 0x0B).run(0x11);
    assert_eq!(card.dots(), [(5, 3)]);
    let mut card = Card::at(Format::Ef9365Low, 0xF05, 0x303);
    card.write(1, 0x0B).run(0x11);
    assert_eq!(card.dots(), [(5, 3)]);
}

#[test]
fn a_position_outside_on_one_axis_alone() {
    for (x, y) in [(512, 10), (10, 256), (4000, 10), (10, 4000)] {
        let mut card = Card::at(Format::Ef9366, x, y);
        assert_eq!(card.run(0x11), 1);
        assert_eq!(card.dots(), []);
        assert_eq!(card.place(), (x, y));
    }
}
