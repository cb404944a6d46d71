//! Where characters and blocks step and end, at the edges too.

mod common;

use common::glyph::{cells, upright};
use common::{listed, Card};
use second::{Format, Work};

// reading 73: u outside, v within
#[test]
fn order_of_the_cycles() {
    let mut card = Card::at(Format::Ef9366, 100, 50);
    let mut expected = Vec::new();
    for u in 0..12 {
        for v in 0..24 {
            expected.push((100 + u, 50 + v));
        }
    }
    assert_eq!(card.write(3, 0x23).places(0x41), expected);

    let mut card = Card::at(Format::Ef9366, 100, 50);
    let mut expected = Vec::new();
    for u in 0..12 {
        for v in 0..24 {
            expected.push((100 - v, 50 + u));
        }
    }
    assert_eq!(card.write(2, 8).write(3, 0x23).places(0x41), expected);

    let mut card = Card::at(Format::Ef9366, 100, 50);
    let mut expected = Vec::new();
    for u in 0..8 {
        for v in 0..12 {
            expected.push((100 + u, 50 + v));
        }
    }
    assert_eq!(card.write(3, 0x23).places(0x0B), expected);
}

// reading 71: between cycles X and Y hold the place of the next cycle
#[test]
fn place_between_cycles() {
    let mut card = Card::at(Format::Ef9366, 100, 50);
    card.command(0x0A);
    assert_eq!(card.place(), (100, 50));
    card.grant(1);
    assert_eq!(card.place(), (100, 51));
    card.grant(6);
    assert_eq!(card.place(), (100, 57));
    card.grant(1);
    assert_eq!(card.place(), (101, 50));
    card.grant(39);
    assert_eq!(card.place(), (105, 57));
    assert_eq!(card.state.work, Work::Steps { code: 0x0A, done: 47 });
    card.grant(1);
    assert_eq!(card.place(), (106, 50));
}

// reading 72: the start is exact when the place has gone around
#[test]
fn ends_near_4096() {
    let mut card = Card::at(Format::Ef9366, 4090, 0);
    card.run(0x0A);
    assert_eq!((card.dots(), card.place()), (vec![], (0, 0)));

    let mut card = Card::at(Format::Ef9366, 4094, 0);
    card.run(0x0A);
    // Columns 2, 3 and 4 are back in the window at 0, 1 and 2.
    assert_eq!(card.dots(), upright(&cells(&["###"; 8]), 1, 1, 0, 0));
    assert_eq!(card.place(), (4, 0));

    let mut card = Card::at(Format::Ef9366, 0, 4092);
    card.run(0x0A);
    // Rows 4 to 7 are back at 0 to 3; Y is restored.
    assert_eq!(card.dots(), upright(&cells(&["#####"; 4]), 1, 1, 0, 0));
    assert_eq!(card.place(), (6, 4092));

    let mut card = Card::at(Format::Ef9366, 4095, 4095);
    card.write(3, 0x00).run(0x0A);
    assert_eq!(card.place(), (95, 4095));

    let mut card = Card::at(Format::Ef9366, 4093, 7);
    card.run(0x0B);
    assert_eq!(card.place(), (1, 7));
}

#[test]
fn turned_ends_near_4096() {
    let mut card = Card::at(Format::Ef9366, 2, 4094);
    card.write(2, 8).run(0x0A);
    // Columns 2 to 4 are at lines 0 to 2, rows 0 to 2 at X 2, 1 and 0.
    assert_eq!(card.dots(), upright(&cells(&["###"; 3]), 1, 1, 0, 0));
    assert_eq!(card.place(), (2, 4));

    let mut card = Card::at(Format::Ef9366, 0, 4000);
    card.write(2, 8).write(3, 0x00).run(0x0A);
    assert_eq!(card.place(), (0, 0));

    let mut card = Card::at(Format::Ef9366, 5, 4095);
    card.write(2, 8).run(0x0B);
    assert_eq!(card.place(), (5, 3));
}

#[test]
fn taken_up_half_way_after_going_around() {
    let mut card = Card::at(Format::Ef9366, 1, 3);
    card.state.work = Work::Steps { code: 0x0A, done: 39 };
    // Cycle 39 is u 4, v 7: the start is (4093, 4092), so the end is (3, 4092).
    assert_eq!(card.grant(100), 9);
    assert_eq!(card.dots(), [(1, 3)]);
    assert_eq!(card.place(), (3, 4092));

    let mut card = Card::at(Format::Ef9366, 1, 3);
    card.state.ctrl2 = 8;
    card.state.work = Work::Steps { code: 0x0A, done: 39 };
    // Turned, the start is (1 + 7, 3 - 4) = (8, 4095), so the end is (8, 5).
    assert_eq!(card.grant(100), 9);
    assert_eq!(card.dots(), [(1, 3)]);
    assert_eq!(card.place(), (8, 5));
}

#[test]
fn at_the_edge_of_the_window() {
    let mut card = Card::at(Format::Ef9366, 510, 252);
    card.run(0x0A);
    assert_eq!(card.dots(), upright(&cells(&["##"; 4]), 1, 1, 510, 252));
    assert_eq!(card.place(), (516, 252));
}

#[test]
fn on_a_cyclic_screen() {
    let mut card = Card::at(Format::Ef9366, 510, 252);
    card.write(1, 0x0B).run(0x0A);
    let mut expected = upright(&cells(&["##"; 4]), 1, 1, 510, 252);
    expected.extend(upright(&cells(&["###"; 4]), 1, 1, 0, 252));
    expected.extend(upright(&cells(&["##"; 4]), 1, 1, 510, 0));
    expected.extend(upright(&cells(&["###"; 4]), 1, 1, 0, 0));
    assert_eq!(card.dots(), listed(&expected));
    assert_eq!(card.place(), (516, 252));
}
