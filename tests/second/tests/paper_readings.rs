//! The section "Readings to check" of document 01, in its order.

mod common;

use common::{listed, lit, Card};
use second::{address, fresh, write, Format};

fn card() -> Card {
    Card::new(Format::Ef9366)
}

#[test]
fn fresh_status_is_05() {
    for format in common::FORMATS {
        let mut card = Card { state: fresh(format), ..Card::new(format) };
        assert_eq!(card.status(), 0x05);
    }
}

#[test]
fn vector_11_by_5_and_2() {
    let mut card = card();
    assert_eq!(card.deltas(5, 2).run(0x11), 6);
    assert_eq!(card.dots(), [(0, 0), (1, 0), (2, 1), (3, 1), (4, 2), (5, 2)]);
    assert_eq!(card.place(), (5, 2));
}

#[test]
fn vector_11_in_the_order_of_its_dots() {
    let mut card = card();
    let places = card.deltas(5, 2).places(0x11);
    assert_eq!(places, [(0, 0), (1, 0), (2, 1), (3, 1), (4, 2), (5, 2)]);
}

#[test]
fn vector_17_by_2_and_1() {
    let mut card = Card::at(Format::Ef9366, 10, 10);
    let places = card.deltas(2, 1).places(0x17);
    assert_eq!(places, [(10, 10), (9, 9), (8, 9)]);
    assert_eq!(card.dots(), listed(&[(10, 10), (9, 9), (8, 9)]));
}

#[test]
fn vector_of_no_length_is_one_dot() {
    let mut card = card();
    assert_eq!(card.deltas(0, 0).run(0x11), 1);
    assert_eq!(card.dots(), [(0, 0)]);
    assert_eq!(card.place(), (0, 0));
}

#[test]
fn vector_10_around_4096() {
    let mut card = Card::at(Format::Ef9366, 4095, 0);
    assert_eq!(card.deltas(2, 0).run(0x10), 3);
    assert_eq!(card.dots(), [(0, 0), (1, 0)]);
    assert_eq!(card.state.x, 1);
}

#[test]
fn vector_10_around_4096_on_a_cyclic_screen() {
    let mut card = Card::at(Format::Ef9366, 4095, 0);
    assert_eq!(card.write(1, 0x0B).deltas(2, 0).run(0x10), 3);
    assert_eq!(card.dots(), [(0, 0), (1, 0), (511, 0)]);
    assert_eq!(card.state.x, 1);
}

#[test]
fn vector_12_past_the_top() {
    let mut card = Card::at(Format::Ef9366, 0, 254);
    card.deltas(0, 3).run(0x12);
    assert_eq!(card.dots(), [(0, 254), (0, 255)]);
    assert_eq!(card.state.y, 257);
    assert_eq!(card.status(), 0x0D);
}

#[test]
fn vector_12_past_the_top_on_a_cyclic_screen() {
    let mut card = Card::at(Format::Ef9366, 0, 254);
    card.write(1, 0x0B).deltas(0, 3).run(0x12);
    assert_eq!(card.dots(), [(0, 0), (0, 1), (0, 254), (0, 255)]);
    assert_eq!(card.state.y, 257);
    assert_eq!(card.status(), 0x0D);
}

#[test]
fn short_vector_e9() {
    let mut card = card();
    assert_eq!(card.run(0xE9), 4);
    assert_eq!(card.dots(), [(0, 0), (1, 0), (2, 1), (3, 1)]);
}

#[test]
fn line_type_1() {
    let mut card = card();
    card.write(2, 1).deltas(5, 0).run(0x10);
    assert_eq!(card.dots(), [(0, 0), (1, 0), (4, 0), (5, 0)]);
}

#[test]
fn vector_19_takes_the_larger_delta() {
    let mut card = card();
    assert_eq!(card.deltas(3, 1).run(0x19), 4);
    assert_eq!(card.dots(), [(0, 0), (1, 1), (2, 2), (3, 3)]);
    assert_eq!(card.place(), (3, 3));
    assert_eq!((card.state.deltax, card.state.deltay), (3, 1));
}

#[test]
fn block_0a_at_both_ends_of_size() {
    let mut card = card();
    assert_eq!(card.write(3, 0x00).run(0x0A), 12_288);
    assert_eq!(card.place(), (96, 0));

    let mut card = self::card();
    assert_eq!(card.run(0x0A), 48);
    assert_eq!(card.place(), (6, 0));
}

#[test]
fn address_and_byte_of_300_100() {
    let mut card = Card::at(Format::Ef9366, 300, 100);
    let answer = address(&card.state);
    assert_eq!((answer.number, answer.ck_low, answer.ck_high, answer.msl), (0, 41, 38, 12));

    card.run(0x11);
    let written: Vec<usize> = (0..card.picture.len()).filter(|&byte| card.picture[byte] != 0).collect();
    assert_eq!(written, [6_437]);
    assert_eq!(card.picture[6_437], 1 << 4);
    assert_eq!(lit(Format::Ef9366, &card.picture), [(300, 100)]);
}

#[test]
fn pen_edge_reads_41_then_40() {
    let mut card = card();
    card.command(0x08).vb(true).vb(false).edge(10, 20);
    assert_eq!(card.read(0xC), 41);
    assert_eq!(card.read(0xC), 40);
    assert_eq!(card.read(0xD), 20);
}

#[test]
fn write_to_c_while_busy_is_5() {
    let mut card = card();
    card.deltas(5, 2).command(0x11);
    assert_eq!(write(&card.state, 0xC, 0).number, 5);
}

#[test]
fn character_while_busy_and_tilted_is_6() {
    let mut card = card();
    card.write(2, 4).deltas(5, 2).command(0x11);
    assert_eq!(write(&card.state, 0, 0x41).number, 6);
}

/// The panel's example, played on the calls.
#[test]
fn the_panel_example() {
    let mut card = Card { state: fresh(Format::Ef9366), ..card() };
    card.write(1, 3).write(5, 5).write(7, 2).command(0x11);
    assert_eq!(card.grant(9), 6);
    assert_eq!(card.status(), 0x05);
    assert_eq!(card.dots(), [(0, 0), (1, 0), (2, 1), (3, 1), (4, 2), (5, 2)]);
}
