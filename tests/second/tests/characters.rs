//! What characters and blocks look like, at several sizes, upright and turned.

mod common;

use common::glyph::{cells, seen, turned, upright, with_glyph, ART, SIZES};
use common::{listed, Card};
use second::Format;

// reading 82: bit 0 is the bottom row, the first byte the left column
#[test]
fn upright_glyph_as_drawn() {
    let mut card = Card::at(Format::Ef9366, 40, 20);
    with_glyph(&mut card, 0x46);
    assert_eq!(card.run(0x46), 48);
    assert_eq!(seen(&card, 40, 20, 6, 8), ART);
    assert_eq!(card.dots().len(), cells(&ART).len());
    assert_eq!(card.place(), (46, 20));
}

// readings 73 and 74: rows go left, columns go up
#[test]
fn turned_glyph_as_drawn() {
    let mut card = Card::at(Format::Ef9366, 40, 20);
    with_glyph(&mut card, 0x46);
    assert_eq!(card.write(2, 8).run(0x46), 48);
    let expected = [
        "........", // spacing
        ".......#", // column 4
        "#.......", // column 3
        "#..#....", // column 2
        "#..#....", // column 1
        "########", // column 0
    ];
    assert_eq!(seen(&card, 33, 20, 8, 6), expected);
    assert_eq!(card.dots().len(), cells(&ART).len());
    assert_eq!(card.place(), (40, 26));
}

#[test]
fn scaled_glyph_as_drawn() {
    let mut card = Card::at(Format::Ef9366, 8, 8);
    with_glyph(&mut card, 0x46);
    assert_eq!(card.write(3, 0x21).run(0x46), 96);
    let expected = [
        "########....",
        "##..........",
        "##..........",
        "######......",
        "##..........",
        "##..........",
        "##..........",
        "##......##..",
    ];
    assert_eq!(seen(&card, 8, 8, 12, 8), expected);
}

// reading 76: P is the upper half of CSIZE, Q the lower
#[test]
fn upright_at_several_sizes() {
    for (csize, p, q) in SIZES {
        let mut card = Card::at(Format::Ef9366, 100, 50);
        with_glyph(&mut card, 0x46);
        assert_eq!(card.write(3, csize).run(0x46), 48 * p * q);
        assert_eq!(card.dots(), upright(&cells(&ART), p, q, 100, 50), "{csize:02X}");
        assert_eq!(card.place(), (100 + 6 * p, 50));
    }
}

// readings 74 and 75: P stays with the writing direction, Y grows and X is restored
#[test]
fn turned_at_several_sizes() {
    for (csize, p, q) in SIZES {
        let mut card = Card::at(Format::Ef9366, 300, 50);
        with_glyph(&mut card, 0x46);
        assert_eq!(card.write(2, 8).write(3, csize).run(0x46), 48 * p * q);
        assert_eq!(card.dots(), turned(&cells(&ART), p, q, 300, 50), "{csize:02X}");
        assert_eq!(card.place(), (300, 50 + 6 * p));
    }
}

#[test]
fn the_largest_size() {
    let mut card = Card::at(Format::Ef9366, 10, 20);
    with_glyph(&mut card, 0x46);
    assert_eq!(card.write(3, 0x00).run(0x46), 12_288);
    assert_eq!(card.dots(), upright(&cells(&ART), 16, 16, 10, 20));
    assert_eq!(card.place(), (106, 20));
}

// reading 80: 0A lights 5P by 8Q and steps 6P
#[test]
fn block_0a() {
    for (csize, p, q) in SIZES {
        let mut card = Card::at(Format::Ef9366, 200, 50);
        assert_eq!(card.write(3, csize).run(0x0A), 48 * p * q);
        assert_eq!(card.dots(), upright(&cells(&["#####"; 8]), p, q, 200, 50));
        assert_eq!(card.place(), (200 + 6 * p, 50));

        let mut card = Card::at(Format::Ef9366, 200, 50);
        assert_eq!(card.write(2, 8).write(3, csize).run(0x0A), 48 * p * q);
        assert_eq!(card.dots(), turned(&cells(&["#####"; 8]), p, q, 200, 50));
        assert_eq!(card.place(), (200, 50 + 6 * p));
    }
}

// reading 75
#[test]
fn block_0b() {
    for (csize, p, q) in SIZES {
        let mut card = Card::at(Format::Ef9366, 200, 50);
        assert_eq!(card.write(3, csize).run(0x0B), 16 * p * q);
        assert_eq!(card.dots(), upright(&cells(&["####"; 4]), p, q, 200, 50));
        assert_eq!(card.place(), (200 + 4 * p, 50));

        let mut card = Card::at(Format::Ef9366, 200, 50);
        assert_eq!(card.write(2, 8).write(3, csize).run(0x0B), 16 * p * q);
        assert_eq!(card.dots(), turned(&cells(&["####"; 4]), p, q, 200, 50));
        assert_eq!(card.place(), (200, 50 + 4 * p));
    }
}

#[test]
fn blocks_do_not_look_at_the_table() {
    for fill in [0x00, 0xFF] {
        for (code, dots) in [(0x0A, 40), (0x0B, 16)] {
            let mut card = Card::new(Format::Ef9366);
            card.table.fill(fill);
            card.run(code);
            assert_eq!(card.dots().len(), dots);
        }
    }
}

// reading 82: each code has its own five bytes
#[test]
fn every_code_takes_its_own_glyph() {
    for code in 0x20..=0x7F {
        let mut card = Card::new(Format::Ef9366);
        with_glyph(&mut card, code);
        card.run(code);
        assert_eq!(card.dots(), upright(&cells(&ART), 1, 1, 0, 0), "{code:02X}");

        let mut card = Card::new(Format::Ef9366);
        card.table.fill(0xFF);
        let start = 5 * (usize::from(code) - 32);
        card.table[start..start + 5].fill(0);
        assert_eq!(card.run(code), 48);
        assert_eq!(card.dots(), [], "{code:02X} alone is empty");
    }
}

// reading 77: a cell without a dot is left alone, by the pen too
#[test]
fn unlit_cells_stay_as_they_were() {
    let mut card = Card::at(Format::Ef9366, 40, 20);
    card.picture.fill(0xFF);
    with_glyph(&mut card, 0x46);
    card.run(0x46);
    assert!(card.picture.iter().all(|&byte| byte == 0xFF));
}

// readings 77 and 78: the eraser darkens the glyph's own dots, not the sixth column
#[test]
fn erased_glyph() {
    let mut card = Card::at(Format::Ef9366, 40, 20);
    card.picture.fill(0xFF);
    with_glyph(&mut card, 0x46);
    card.write(1, 1).run(0x46);
    let inverted = [
        "....##", //
        ".#####", //
        ".#####", //
        "...###", //
        ".#####", //
        ".#####", //
        ".#####", //
        ".###.#", //
    ];
    assert_eq!(seen(&card, 40, 20, 6, 8), inverted);
    assert_eq!(card.dots().len(), 512 * 256 - cells(&ART).len());
}

#[test]
fn pen_up_writes_nothing_and_moves_on() {
    for ctrl1 in [0, 2] {
        let mut card = Card::at(Format::Ef9366, 40, 20);
        assert_eq!(card.write(1, ctrl1).run(0x0A), 48);
        assert_eq!(card.dots(), []);
        assert_eq!(card.place(), (46, 20));
    }
}

// reading 79
#[test]
fn line_type_does_nothing_to_a_character() {
    for line_type in 0..4 {
        let mut card = Card::at(Format::Ef9366, 40, 20);
        with_glyph(&mut card, 0x46);
        card.write(2, line_type).write(3, 0x32).run(0x46);
        assert_eq!(card.dots(), upright(&cells(&ART), 3, 2, 40, 20));
    }
}

#[test]
fn deltas_do_nothing_to_a_character() {
    let mut card = Card::at(Format::Ef9366, 40, 20);
    assert_eq!(card.deltas(200, 100).run(0x0B), 16);
    assert_eq!(card.place(), (44, 20));
}

#[test]
fn a_row_of_characters() {
    let mut card = Card::new(Format::Ef9366);
    with_glyph(&mut card, 0x46);
    for _ in 0..3 {
        assert_eq!(card.write(3, 0x21).run(0x46), 96);
    }
    let mut expected = upright(&cells(&ART), 2, 1, 0, 0);
    expected.extend(upright(&cells(&ART), 2, 1, 12, 0));
    expected.extend(upright(&cells(&ART), 2, 1, 24, 0));
    assert_eq!(card.dots(), listed(&expected));
}
