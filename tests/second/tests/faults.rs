//! The faults seen on other cards, which this one must not have.

mod common;

use common::{listed, Card};
use second::Format;

#[test]
fn the_position_is_not_held_at_the_edge() {
    let mut card = Card::at(Format::Ef9366, 509, 0);
    card.deltas(5, 0).run(0x10);
    assert_eq!(card.dots(), [(509, 0), (510, 0), (511, 0)]);
    assert_eq!(card.place(), (514, 0));
    card.run(0x16);
    assert_eq!(card.place(), (509, 0));
    assert_eq!(card.dots(), [(509, 0), (510, 0), (511, 0)]);
}

#[test]
fn the_position_is_not_masked_unless_cyclic() {
    let mut card = Card::at(Format::Ef9366, 512, 256);
    card.run(0x11);
    assert_eq!(card.dots(), []);
    assert_eq!(card.place(), (512, 256));
}

#[test]
fn erasing_from_the_far_end_leaves_dots() {
    let mut card = Card::new(Format::Ef9366);
    card.deltas(2, 1).run(0x11);
    assert_eq!(card.dots(), listed(&[(0, 0), (1, 1), (2, 1)]));
    card.command(0x01).run(0x17);
    assert_eq!(card.dots(), [(1, 1)]);
}

#[test]
fn erasing_from_the_same_end_leaves_none() {
    for code in 0x10..=0x1F {
        let mut card = Card::at(Format::Ef9366, 100, 100);
        card.deltas(19, 8).run(code);
        assert!(!card.dots().is_empty());
        card.write(9, 100).write(11, 100).command(0x01).run(code);
        assert_eq!(card.dots(), []);
    }
}

#[test]
fn the_line_type_is_not_carried_on() {
    let mut card = Card::new(Format::Ef9366);
    card.write(2, 2).deltas(5, 0).run(0x10);
    card.run(0x12);
    // The second vector begins on its first dot, where the first one had come to an off dot.
    assert_eq!(card.dots(), [(0, 0), (1, 0), (2, 0), (3, 0), (5, 0)]);
}

#[test]
fn characters_are_6p_wide() {
    let mut card = Card::new(Format::Ef9366);
    card.write(3, 0x31).run(0x0A);
    assert_eq!(card.place(), (18, 0));
    assert_eq!(card.dots().iter().map(|dot| dot.0).max(), Some(14));
}

#[test]
fn p_is_the_upper_half_of_csize() {
    let mut card = Card::new(Format::Ef9366);
    card.write(3, 0x52).run(0x0A);
    assert_eq!(card.place(), (30, 0));
    assert_eq!(card.dots().iter().map(|dot| dot.0).max(), Some(24));
    assert_eq!(card.dots().iter().map(|dot| dot.1).max(), Some(15));
}
