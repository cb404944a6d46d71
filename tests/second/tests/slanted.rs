//! Request c: what tilted characters and blocks look like, along a line and turned.

mod common;

use common::glyph::{cells, seen, tilted, turned, turned_tilted, upright, with_glyph, ART, SIZES};
use common::{listed, Card, FORMATS};
use second::Format;

const TILT: u8 = 4;
const TURNED_TILT: u8 = 12;

/// A card with its glyph at 46, ready to write it at (x, y).
fn lettered(ctrl2: u8, csize: u8, x: u16, y: u16) -> Card {
    let mut card = Card::at(Format::Ef9366, x, y);
    with_glyph(&mut card, 0x46);
    card.write(2, ctrl2).write(3, csize);
    card
}

#[test]
fn tilted_glyph_as_drawn() {
    let mut card = lettered(TILT, 0x11, 40, 20);
    assert_eq!(card.run(0x46), 48);
    let expected = [
        ".......####..",
        "......#......",
        ".....#.......",
        "....###......",
        "...#.........",
        "..#..........",
        ".#...........",
        "#...#........",
    ];
    assert_eq!(seen(&card, 40, 20, 13, 8), expected);
    assert_eq!(card.dots().len(), cells(&ART).len());
    assert_eq!(card.place(), (46, 20));
}

#[test]
fn turned_and_tilted_glyph_as_drawn() {
    let mut card = lettered(TURNED_TILT, 0x11, 40, 20);
    assert_eq!(card.run(0x46), 48);
    let expected = [
        "........", //
        "........", //
        "#.......", // the top row of the glyph is the column on the left
        "#.......", //
        "#.......", //
        "#.......", //
        ".#.#....", //
        "..##....", //
        "...#...#", //
        "....#...", //
        ".....#..", //
        "......#.", //
        ".......#", //
    ];
    assert_eq!(seen(&card, 33, 20, 8, 13), expected);
    assert_eq!(card.dots().len(), cells(&ART).len());
    assert_eq!(card.place(), (40, 26));
}

// reading c.1: both lines of a cell move, each by itself
#[test]
fn scaled_and_tilted_glyph_as_drawn() {
    let mut card = lettered(TILT, 0x32, 40, 20);
    assert_eq!(card.run(0x46), 288);
    let expected = [
        "...............############......",
        "..............############.......",
        ".............###.................",
        "............###..................",
        "...........###...................",
        "..........###....................",
        ".........#########...............",
        "........#########................",
        ".......###.......................",
        "......###........................",
        ".....###.........................",
        "....###..........................",
        "...###...........................",
        "..###............................",
        ".###.........###.................",
        "###.........###..................",
    ];
    assert_eq!(seen(&card, 40, 20, 33, 16), expected);
    assert_eq!(card.dots().len(), 6 * cells(&ART).len());
    assert_eq!(card.place(), (58, 20));
}

// reading c.1: the cells are 2 high and 3 wide, and each of the 3 columns moves by itself
#[test]
fn scaled_turned_and_tilted_glyph_as_drawn() {
    let mut card = lettered(TURNED_TILT, 0x23, 40, 20);
    assert_eq!(card.run(0x46), 288);
    let expected = [
        "#.......................",
        "##......................",
        "###.....................",
        "###.....................",
        "###.....................",
        "###.....................",
        "###.....................",
        "###.....................",
        ".##.....................",
        "..##....................",
        "...##...................",
        "....##...#..............",
        ".....##..##.............",
        "......##.###............",
        ".......#####............",
        "........####............",
        ".........###............",
        "..........##............",
        "...........##...........",
        "............##.......#..",
        ".............##......##.",
        "..............##......##",
        "...............##......#",
        "................##......",
        ".................##.....",
        "..................##....",
        "...................##...",
        "....................##..",
        ".....................##.",
        "......................##",
        ".......................#",
    ];
    assert_eq!(seen(&card, 17, 20, 24, 31), expected);
    assert_eq!(card.dots().len(), 6 * cells(&ART).len());
    assert_eq!(card.place(), (40, 32));
}

// readings c.1 and c.4: the straight glyph sheared, and the straight end
#[test]
fn all_four_ways_at_several_sizes() {
    for (csize, p, q) in SIZES.into_iter().chain([(0x00, 16, 16)]) {
        let along_a_line = upright(&cells(&ART), p, q, 300, 20);
        let up = turned(&cells(&ART), p, q, 300, 20);
        for (ctrl2, expected, end) in [
            (0, along_a_line.clone(), (300 + 6 * p, 20)),
            (4, tilted(&along_a_line, 20), (300 + 6 * p, 20)),
            (8, up.clone(), (300, 20 + 6 * p)),
            (12, turned_tilted(&up, 300), (300, 20 + 6 * p)),
        ] {
            let mut card = lettered(ctrl2, csize, 300, 20);
            assert_eq!(card.run(0x46), 48 * p * q, "{ctrl2} {csize:02X}");
            assert_eq!(card.dots(), expected, "{ctrl2} {csize:02X}");
            assert_eq!(card.place(), end, "{ctrl2} {csize:02X}");
        }
    }
}

// reading c.2
#[test]
fn both_blocks_at_several_sizes() {
    for (csize, p, q) in SIZES {
        for (code, art, cycles, columns) in
            [(0x0A, &["#####"; 8][..], 48 * p * q, 6), (0x0B, &["####"; 4], 16 * p * q, 4)]
        {
            let mut card = lettered(TILT, csize, 200, 50);
            assert_eq!(card.run(code), cycles);
            assert_eq!(card.dots(), tilted(&upright(&cells(art), p, q, 200, 50), 50));
            assert_eq!(card.place(), (200 + columns * p, 50));

            let mut card = lettered(TURNED_TILT, csize, 200, 50);
            assert_eq!(card.run(code), cycles);
            assert_eq!(card.dots(), turned_tilted(&turned(&cells(art), p, q, 200, 50), 200));
            assert_eq!(card.place(), (200, 50 + columns * p));
        }
    }
}

// reading c.2
#[test]
fn tilted_block_0b_as_drawn() {
    let mut card = lettered(TILT, 0x21, 40, 20);
    assert_eq!(card.run(0x0B), 32);
    let expected = [
        "...########", //
        "..########.", //
        ".########..", //
        "########...", //
    ];
    assert_eq!(seen(&card, 40, 20, 11, 4), expected);
    assert_eq!(card.dots().len(), 32);
    assert_eq!(card.place(), (48, 20));
}

#[test]
fn on_every_format() {
    for format in FORMATS {
        let mut card = Card::at(format, 40, 20);
        card.table.fill(0x81);
        // Each glyph is its bottom row and its top row, the sixth column left out.
        card.write(2, TILT).run(0x7F);
        let bottom = (40..45).map(|x| (x, 20));
        let top = (47..52).map(|x| (x, 27));
        assert_eq!(card.dots(), bottom.chain(top).collect::<Vec<_>>(), "{format:?}");
    }
}

#[test]
fn every_code_takes_its_own_glyph() {
    for code in 0x20..=0x7F {
        let mut card = Card::new(Format::Ef9366);
        with_glyph(&mut card, code);
        assert_eq!(card.write(2, TILT).run(code), 48);
        assert_eq!(card.dots(), tilted(&upright(&cells(&ART), 1, 1, 0, 0), 0), "{code:02X}");
    }
}

#[test]
fn line_type_and_deltas_do_nothing_to_it() {
    let straight = upright(&cells(&ART), 3, 2, 100, 20);
    let up = turned(&cells(&ART), 3, 2, 100, 20);
    for line_type in 0..4 {
        let mut card = lettered(TILT + line_type, 0x32, 100, 20);
        assert_eq!(card.deltas(200, 100).run(0x46), 288);
        assert_eq!(card.dots(), tilted(&straight, 20));

        let mut card = lettered(TURNED_TILT + line_type, 0x32, 100, 20);
        assert_eq!(card.deltas(200, 100).run(0x46), 288);
        assert_eq!(card.dots(), turned_tilted(&up, 100));
    }
}

/// Neighbours lean alike, so they stand 6P apart as straight ones do.
#[test]
fn a_row_of_tilted_characters() {
    let mut card = lettered(TILT, 0x21, 0, 0);
    for _ in 0..3 {
        assert_eq!(card.run(0x46), 96);
    }
    let one = tilted(&upright(&cells(&ART), 2, 1, 0, 0), 0);
    let moved = |by: u16| one.iter().map(move |&(x, y)| (x + by, y));
    assert_eq!(card.dots(), listed(&moved(0).chain(moved(12)).chain(moved(24)).collect::<Vec<_>>()));
    assert_eq!(card.dots().len(), 3 * one.len());
    assert_eq!(card.place(), (36, 0));
}

#[test]
fn tilt_goes_by_the_write_before_each_character() {
    let mut card = lettered(TILT, 0x11, 0, 0);
    card.run(0x46);
    card.write(2, 0).run(0x46);
    let mut expected = tilted(&upright(&cells(&ART), 1, 1, 0, 0), 0);
    expected.extend(upright(&cells(&ART), 1, 1, 6, 0));
    assert_eq!(card.dots(), listed(&expected));
    assert_eq!(card.place(), (12, 0));
}

// reading 77: a cell without a dot is left alone
#[test]
fn unlit_cells_stay_as_they_were() {
    for ctrl2 in [TILT, TURNED_TILT] {
        let mut card = lettered(ctrl2, 0x32, 100, 20);
        card.picture.fill(0xFF);
        card.run(0x46);
        assert!(card.picture.iter().all(|&byte| byte == 0xFF));
    }
}

#[test]
fn pen_up_writes_nothing_and_moves_on() {
    for ctrl1 in [0, 2] {
        let mut card = lettered(TILT, 0x23, 40, 20);
        assert_eq!(card.write(1, ctrl1).run(0x0A), 288);
        assert_eq!((card.dots(), card.place()), (vec![], (52, 20)));
    }
}
