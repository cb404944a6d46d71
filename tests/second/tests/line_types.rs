//! The four line types.

mod common;

use common::Card;
use second::{Format, Work};

/// The bottom line of the picture, one character a dot.
fn bottom_line(card: &Card, dots: u16) -> String {
    let lit = card.dots();
    (0..dots).map(|x| if lit.contains(&(x, 0)) { '#' } else { '.' }).collect()
}

const PATTERNS: [&str; 4] = [
    "##################################################",
    "##..##..##..##..##..##..##..##..##..##..##..##..##",
    "####....####....####....####....####....####....##",
    "##########..##..##########..##..##########..##..##",
];

#[test]
fn past_the_period_of_each_type() {
    for (line_type, pattern) in PATTERNS.into_iter().enumerate() {
        let mut card = Card::new(Format::Ef9366);
        assert_eq!(card.write(2, line_type as u8).deltas(49, 0).run(0x10), 50);
        assert_eq!(bottom_line(&card, 50), pattern);
        assert_eq!(card.place(), (49, 0));
    }
}

#[test]
fn the_dot_number_counts_along_the_longer_axis() {
    for (line_type, pattern) in PATTERNS.into_iter().enumerate() {
        for (code, deltax, deltay) in [(0x11, 20, 49), (0x11, 49, 20), (0x19, 3, 49)] {
            let mut card = Card::new(Format::Ef9366);
            card.write(2, line_type as u8).deltas(deltax, deltay);
            let places = card.places(code);
            assert_eq!(places.len(), 50);
            let lit = card.dots();
            let seen: String =
                places.iter().map(|place| if lit.contains(place) { '#' } else { '.' }).collect();
            assert_eq!(seen, pattern);
        }
    }
}

// reading 66
#[test]
fn a_single_dot_is_on_in_every_type() {
    for line_type in 0..4 {
        let mut card = Card::new(Format::Ef9366);
        card.write(2, line_type).run(0x11);
        assert_eq!(card.dots(), [(0, 0)]);
    }
}

#[test]
fn short_vectors_follow_the_line_type() {
    let mut card = Card::new(Format::Ef9366);
    card.write(2, 1).run(0xE0);
    assert_eq!(bottom_line(&card, 5), "##...");
    let mut card = Card::new(Format::Ef9366);
    card.write(2, 2).run(0xE0);
    assert_eq!(bottom_line(&card, 5), "####.");
}

// reading 65: dots outside the window count
#[test]
fn the_dot_number_counts_outside_the_window() {
    let mut card = Card::at(Format::Ef9366, 4093, 0);
    card.write(2, 1).deltas(8, 0).run(0x10);
    assert_eq!(card.dots(), [(1, 0), (2, 0), (5, 0)]);
}

// reading 65: the pattern goes on over several grants
#[test]
fn the_dot_number_counts_over_grants() {
    for first in 0..50 {
        let mut card = Card::new(Format::Ef9366);
        card.write(2, 3).deltas(49, 0).command(0x10);
        card.grant(first);
        card.grant(100);
        assert_eq!(bottom_line(&card, 50), PATTERNS[3]);
    }
}

#[test]
fn each_vector_begins_its_pattern_afresh() {
    let mut card = Card::new(Format::Ef9366);
    card.write(2, 1).deltas(2, 0).run(0x10);
    assert_eq!(bottom_line(&card, 8), "##......");
    card.run(0x10);
    assert_eq!(bottom_line(&card, 8), "####....");
    card.run(0x10);
    assert_eq!(bottom_line(&card, 8), "######..");
}

#[test]
fn an_off_dot_is_left_as_it_was_by_pen_and_eraser() {
    let mut card = Card::new(Format::Ef9366);
    card.picture.fill(0xFF);
    card.write(1, 1).write(2, 1).deltas(7, 0).run(0x10);
    assert_eq!(card.picture[0], 0b1100_1100);
    card.command(0x05).write(1, 3).run(0x10);
    assert_eq!(card.picture[0], 0xFF);
}

#[test]
fn an_off_dot_uses_its_cycle() {
    let mut card = Card::new(Format::Ef9366);
    card.write(2, 1).deltas(5, 0).command(0x10).grant(2);
    assert_eq!(card.state.x, 2);
    assert_eq!(card.grant(1), 1);
    assert_eq!((card.state.x, card.state.work), (3, Work::Steps { code: 0x10, done: 3 }));
    assert_eq!(card.dots().len(), 2);
}

// readings 67 and c.6: the upper two bits of CTRL2 are no part of the line type
#[test]
fn only_the_low_bits_choose_the_type() {
    for ctrl2 in 0..16 {
        let pattern = PATTERNS[usize::from(ctrl2 % 4)];
        for code in [0x10, 0x18] {
            let mut card = Card::new(Format::Ef9366);
            card.write(2, ctrl2).deltas(49, 0).run(code);
            assert_eq!(bottom_line(&card, 50), pattern);
        }
        let mut card = Card::new(Format::Ef9366);
        card.write(2, ctrl2).run(0xE0);
        assert_eq!(bottom_line(&card, 4), pattern[..4]);
    }
}
