//! Request c with demand 3: a list with tilted characters, drawn with the pen and played again with the eraser.

mod common;

use common::glyph::{cells, tilted, turned, turned_tilted, upright, with_glyph, ART};
use common::{listed, lit, Card};
use second::Format;

const TILT: u8 = 4;
const TURNED_TILT: u8 = 12;

/// A register address and the byte written there; address 0 takes the commands.
type Item = (u8, u8);

/// A scale up the screen with its marks: letters of all four ways, blocks and vectors between them.
const SCALE: [Item; 21] = [
    (2, TILT),
    (3, 0x32),
    (0, 0x46),
    (0, 0x46),
    (2, TURNED_TILT),
    (3, 0x21),
    (0, 0x46),
    (0, 0x0B),
    (2, TILT + 3),
    (5, 20),
    (0, 0x10),
    (0, 0x0A),
    (2, 0),
    (0, 0x46),
    (2, 8),
    (0, 0x46),
    (2, TURNED_TILT),
    (0, 0x0A),
    (2, TURNED_TILT + 3),
    (0, 0xFF),
    (0, 0x46),
];

fn start(byte: u8) -> Card {
    let mut card = Card::at(Format::Ef9366, 200, 30);
    card.picture.fill(byte);
    with_glyph(&mut card, 0x46);
    card
}

fn play(card: &mut Card, list: &[Item]) {
    for &(address, value) in list {
        card.write(address, value).grant(65_535);
    }
}

/// The registers of the start, by writes.
fn put_back(card: &mut Card) {
    card.write(8, 0).write(9, 200).write(10, 0).write(11, 30);
    card.write(2, 0).write(3, 0x11).deltas(0, 0);
}

/// Where each item of the scale begins follows from the straight ends, added up by hand.
fn dots_of_the_scale() -> Vec<(u16, u16)> {
    let glyph = cells(&ART);
    let block = cells(&["#####"; 8]);
    let mut dots = tilted(&upright(&glyph, 3, 2, 200, 30), 30);
    dots.extend(tilted(&upright(&glyph, 3, 2, 218, 30), 30));
    // Turned from (236, 30): Y grows by 12, then by 8.
    dots.extend(turned_tilted(&turned(&glyph, 2, 1, 236, 30), 236));
    dots.extend(turned_tilted(&turned(&cells(&["####"; 4]), 2, 1, 236, 42), 236));
    // Line type 3: ten on, two off, two on, two off, and five of the next ten.
    dots.extend((236..246).chain(248..250).chain(252..257).map(|x| (x, 50)));
    dots.extend(tilted(&upright(&block, 2, 1, 256, 50), 50));
    dots.extend(upright(&glyph, 2, 1, 268, 50));
    dots.extend(turned(&glyph, 2, 1, 280, 50));
    dots.extend(turned_tilted(&turned(&block, 2, 1, 280, 62), 280));
    // The short vector goes three to the left and three down, all four dots on.
    dots.extend([(280, 74), (279, 73), (278, 72), (277, 71)]);
    dots.extend(turned_tilted(&turned(&glyph, 2, 1, 277, 71), 277));
    listed(&dots)
}

#[test]
fn drawn_on_a_dark_screen() {
    let mut card = start(0x00);
    play(&mut card, &SCALE);
    assert_eq!(card.dots(), dots_of_the_scale());
    assert_eq!(card.place(), (277, 83));
}

#[test]
fn erased_by_playing_it_again() {
    let dots = dots_of_the_scale();
    for byte in [0x00, 0xFF, 0x5A] {
        let mut card = start(byte);
        let before = card.dots();
        play(&mut card, &SCALE);
        assert_eq!(card.dots(), listed(&[&before[..], &dots].concat()), "{byte:02X}: drawn");
        put_back(&mut card);
        card.command(0x01);
        play(&mut card, &SCALE);
        let others: Vec<(u16, u16)> = before.into_iter().filter(|dot| !dots.contains(dot)).collect();
        assert_eq!(card.dots(), others, "{byte:02X}: erased");
    }
}

/// As the data sheet deletes a character: the same origin and size, the same code or 0A.
#[test]
fn a_tilted_letter_is_deleted_by_its_code_or_by_0a() {
    for ctrl2 in [TILT, TURNED_TILT] {
        for code in [0x46, 0x0A] {
            let mut card = start(0x00);
            card.write(2, ctrl2).write(3, 0x32).run(0x46);
            assert_eq!(card.dots().len(), 6 * cells(&ART).len());
            card.write(9, 200).write(11, 30).command(0x01).run(code);
            assert_eq!(card.dots(), []);
        }
    }
}

/// The eraser has to lean as the pen did.
#[test]
fn a_tilted_letter_is_not_deleted_straight() {
    let mut card = start(0x00);
    card.write(2, TILT).run(0x46);
    card.write(9, 200).command(0x01).write(2, 0).run(0x0A);
    // The block takes X 200 to 204: all up to row 3, the first dot of row 4, and nothing above.
    let left = [(205, 34), (206, 34), (205, 35), (206, 36), (207, 37), (208, 37), (209, 37), (210, 37)];
    assert_eq!(card.dots(), left);
}

/// What is lit where the list goes is dark after; of what it passes by nothing changes.
#[test]
fn the_eraser_writes_what_the_pen_wrote() {
    let mut card = start(0xFF);
    card.command(0x01);
    play(&mut card, &SCALE);
    let darkened: Vec<u8> = card.picture.iter().map(|byte| !byte).collect();
    assert_eq!(lit(Format::Ef9366, &darkened), dots_of_the_scale());
}
