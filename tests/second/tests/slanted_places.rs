//! Request c: where tilted characters and blocks step and end, at the edges too.

mod common;

use common::{listed, Card};
use second::{address, Format, State, Work};

const TILT: u8 = 4;
const TURNED_TILT: u8 = 12;

fn tilted_at(x: u16, y: u16) -> Card {
    let mut card = Card::at(Format::Ef9366, x, y);
    card.write(2, TILT);
    card
}

fn turned_and_tilted_at(x: u16, y: u16) -> Card {
    let mut card = Card::at(Format::Ef9366, x, y);
    card.write(2, TURNED_TILT);
    card
}

/// Dots side by side: the line, the first and the last of them.
fn runs(lines: &[(u16, u16, u16)]) -> Vec<(u16, u16)> {
    let dots: Vec<(u16, u16)> =
        lines.iter().flat_map(|&(line, first, last)| (first..=last).map(move |x| (x, line))).collect();
    listed(&dots)
}

// reading c.3, with reading 73: u outside, v within
#[test]
fn order_of_the_cycles() {
    for (code, breadth, rise) in [(0x41, 12, 24), (0x0A, 12, 24), (0x0B, 8, 12)] {
        let (mut along_a_line, mut up) = (Vec::new(), Vec::new());
        for u in 0..breadth {
            for v in 0..rise {
                along_a_line.push((100 + u + v, 50 + v));
                up.push((100 - v, 50 + u + v));
            }
        }
        assert_eq!(tilted_at(100, 50).write(3, 0x23).places(code), along_a_line);
        assert_eq!(turned_and_tilted_at(100, 50).write(3, 0x23).places(code), up);
    }
}

// readings c.3 and c.4: on the slanted place of the next cycle, at the end where a straight one ends
#[test]
fn place_between_cycles() {
    let mut card = tilted_at(100, 50);
    card.command(0x0A);
    assert_eq!(card.place(), (100, 50));
    for (n, place) in [(1, (101, 51)), (6, (107, 57)), (1, (101, 50)), (39, (112, 57)), (1, (106, 50))] {
        assert_eq!(card.grant(n), n);
        assert_eq!(card.place(), place);
    }
    assert_eq!(card.state.work, Work::Idle);

    let mut card = turned_and_tilted_at(100, 50);
    card.command(0x0A);
    assert_eq!(card.place(), (100, 50));
    for (n, place) in [(1, (99, 51)), (6, (93, 57)), (1, (100, 51)), (39, (93, 62)), (1, (100, 56))] {
        assert_eq!(card.grant(n), n);
        assert_eq!(card.place(), place);
    }
    assert_eq!(card.state.work, Work::Idle);
}

#[test]
fn part_of_a_character() {
    let mut card = tilted_at(100, 50);
    card.command(0x0A);
    assert_eq!(card.grant(10), 10);
    // The first column and two dots of the second.
    let column = [(100, 50), (101, 51), (102, 52), (103, 53), (104, 54), (105, 55), (106, 56), (107, 57)];
    let expected = listed(&[&column[..], &[(101, 50), (102, 51)]].concat());
    assert_eq!((card.dots(), card.place()), (expected, (103, 52)));
    assert_eq!(card.state.work, Work::Steps { code: 0x0A, done: 10 });

    let mut card = turned_and_tilted_at(100, 50);
    card.write(3, 0x12).command(0x0B);
    assert_eq!(card.grant(10), 10);
    let column = [(100, 50), (99, 51), (98, 52), (97, 53), (96, 54), (95, 55), (94, 56), (93, 57)];
    let expected = listed(&[&column[..], &[(100, 51), (99, 52)]].concat());
    assert_eq!((card.dots(), card.place()), (expected, (98, 53)));
    assert_eq!(card.grant(100), 22);
    assert_eq!(card.place(), (100, 54));
}

/// X, Y, bit 3 of STATUS and the address outputs all show the slanted place.
#[test]
fn what_the_host_sees_between_cycles() {
    let mut card = tilted_at(293, 93);
    card.command(0x0A).grant(7);
    let shown = [8, 9, 10, 11].map(|address| card.read(address));
    assert_eq!(shown, [0x01, 0x2C, 0x00, 0x64]);
    let outputs = address(&card.state);
    assert_eq!((outputs.number, outputs.ck_low, outputs.ck_high, outputs.msl), (0, 41, 38, 12));

    let mut card = tilted_at(508, 0);
    card.command(0x0A).grant(3);
    assert_eq!((card.place(), card.status()), ((511, 3), 0x01));
    card.grant(1);
    assert_eq!((card.place(), card.status()), ((512, 4), 0x09));
    card.grant(4);
    assert_eq!((card.place(), card.status()), ((509, 0), 0x01));
    card.grant(40);
    assert_eq!((card.place(), card.status()), ((514, 0), 0x0D));
}

#[test]
fn ends_near_4096() {
    let mut card = tilted_at(4090, 0);
    card.run(0x0A);
    let expected = [(2, 0, 0), (3, 0, 1), (4, 0, 2), (5, 0, 3), (6, 0, 4), (7, 1, 5)];
    assert_eq!((card.dots(), card.place()), (runs(&expected), (0, 0)));

    let mut card = tilted_at(0, 4092);
    card.run(0x0A);
    // Rows 4 to 7 are back at lines 0 to 3; Y is restored.
    let expected = [(0, 4, 8), (1, 5, 9), (2, 6, 10), (3, 7, 11)];
    assert_eq!((card.dots(), card.place()), (runs(&expected), (6, 4092)));

    let mut card = tilted_at(4095, 4095);
    card.write(3, 0x00).run(0x0A);
    assert_eq!(card.place(), (95, 4095));

    let mut card = tilted_at(4093, 7);
    card.run(0x0B);
    let expected = [(7, 0, 0), (8, 0, 1), (9, 0, 2), (10, 0, 3)];
    assert_eq!((card.dots(), card.place()), (runs(&expected), (1, 7)));
}

#[test]
fn turned_ends_near_4096() {
    let mut card = turned_and_tilted_at(2, 4094);
    card.run(0x0A);
    // Row 0 is at X 2 from line 4094, row 1 at X 1 from 4095, row 2 at X 0 from 0; the others are outside.
    let expected = [(0, 0, 2), (1, 0, 2), (2, 0, 2), (3, 0, 1), (4, 0, 0)];
    assert_eq!((card.dots(), card.place()), (runs(&expected), (2, 4)));

    let mut card = turned_and_tilted_at(0, 4000);
    card.write(3, 0x00).run(0x0A);
    assert_eq!(card.place(), (0, 0));

    let mut card = turned_and_tilted_at(5, 4095);
    card.run(0x0B);
    assert_eq!(card.place(), (5, 3));
}

#[test]
fn places_around_4096() {
    let mut card = tilted_at(4094, 4093);
    card.command(0x0B);
    for place in [(4095, 4094), (0, 4095), (1, 0), (4095, 4093), (0, 4094), (1, 4095), (2, 0)] {
        card.grant(1);
        assert_eq!(card.place(), place);
    }

    let mut card = turned_and_tilted_at(1, 4094);
    card.command(0x0B);
    for place in [(0, 4095), (4095, 0), (4094, 1), (1, 4095), (0, 0), (4095, 1), (4094, 2), (1, 0)] {
        card.grant(1);
        assert_eq!(card.place(), place);
    }
}

// reading 3: any place goes with any progress, and the start is worked out from both
#[test]
fn taken_up_half_way_after_going_around() {
    let half_way = |ctrl2| {
        let mut card = Card::at(Format::Ef9366, 1, 3);
        card.state = State { ctrl2, work: Work::Steps { code: 0x0A, done: 39 }, ..card.state };
        card
    };
    // Cycle 39 is u 4, v 7: the start is (1 - 11, 3 - 7) = (4086, 4092), so the end is (4092, 4092).
    let mut card = half_way(TILT);
    assert_eq!(card.grant(100), 9);
    assert_eq!((card.dots(), card.place()), (vec![(1, 3)], (4092, 4092)));

    // Turned, the start is (1 + 7, 3 - 11) = (8, 4088), so the end is (8, 4094).
    let mut card = half_way(TURNED_TILT);
    assert_eq!(card.grant(100), 9);
    assert_eq!((card.dots(), card.place()), (vec![(1, 3)], (8, 4094)));
}

#[test]
fn at_the_edge_of_the_window() {
    let mut card = tilted_at(510, 252);
    card.run(0x0A);
    assert_eq!((card.dots(), card.place()), (runs(&[(252, 510, 511), (253, 511, 511)]), (516, 252)));

    // A straight one would just fit; tilted, each line above loses one dot more.
    let mut card = tilted_at(507, 0);
    card.run(0x0A);
    let expected = [(0, 507, 511), (1, 508, 511), (2, 509, 511), (3, 510, 511), (4, 511, 511)];
    assert_eq!((card.dots(), card.place()), (runs(&expected), (513, 0)));

    // The start is outside; each line above comes one dot further in from the left.
    let mut card = tilted_at(4092, 250);
    card.run(0x0A);
    let expected = [(250, 0, 0), (251, 0, 1), (252, 0, 2), (253, 0, 3), (254, 0, 4), (255, 1, 5)];
    assert_eq!((card.dots(), card.place()), (runs(&expected), (2, 250)));

    let mut card = turned_and_tilted_at(511, 251);
    card.run(0x0A);
    let expected = [(251, 511, 511), (252, 510, 511), (253, 509, 511), (254, 508, 511), (255, 507, 511)];
    assert_eq!((card.dots(), card.place()), (runs(&expected), (511, 257)));
}

#[test]
fn on_a_cyclic_screen() {
    let mut card = tilted_at(510, 252);
    card.write(1, 0x0B).run(0x0A);
    let expected = [
        (252, 510, 511),
        (252, 0, 2),
        (253, 511, 511),
        (253, 0, 3),
        (254, 0, 4),
        (255, 1, 5),
        (0, 2, 6),
        (1, 3, 7),
        (2, 4, 8),
        (3, 5, 9),
    ];
    assert_eq!((card.dots(), card.place()), (runs(&expected), (516, 252)));

    let mut card = turned_and_tilted_at(1, 253);
    card.write(1, 0x0B).run(0x0B);
    // Columns of four at X 1 from line 253, X 0 from 254, X 511 from 255 and X 510 from 256, which is 0.
    let expected = [
        (253, 1, 1),
        (254, 0, 1),
        (255, 0, 1),
        (255, 511, 511),
        (0, 0, 1),
        (0, 510, 511),
        (1, 0, 0),
        (1, 510, 511),
        (2, 510, 511),
        (3, 510, 510),
    ];
    assert_eq!((card.dots(), card.place()), (runs(&expected), (1, 257)));
}
