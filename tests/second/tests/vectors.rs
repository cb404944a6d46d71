//! Vectors: directions, lengths and the place of each dot.

mod common;

use common::{listed, Card};
use second::{Format, Work};

const CENTRE: u16 = 100;

/// Signed steps from the centre, in the order of the dots.
fn steps(card: &mut Card, code: u8) -> Vec<(i32, i32)> {
    let from_centre = |at: u16| i32::from(at) - i32::from(CENTRE);
    let places = card.places(code);
    assert_eq!(card.dots(), listed(&places), "{code:02X}: every place has its dot");
    assert_eq!(card.place(), *places.last().unwrap(), "{code:02X}: ends on the last dot");
    places.into_iter().map(|(x, y)| (from_centre(x), from_centre(y))).collect()
}

fn centred() -> Card {
    Card::at(Format::Ef9365Low, CENTRE, CENTRE)
}

fn drawn(code: u8, deltax: u8, deltay: u8) -> Vec<(i32, i32)> {
    let mut card = centred();
    steps(card.deltas(deltax, deltay), code)
}

// reading 60: ties go away from the start in all four diagonals
#[test]
fn eight_directions_by_5_and_2() {
    assert_eq!(drawn(0x10, 5, 2), [(0, 0), (1, 0), (2, 0), (3, 0), (4, 0), (5, 0)]);
    assert_eq!(drawn(0x11, 5, 2), [(0, 0), (1, 0), (2, 1), (3, 1), (4, 2), (5, 2)]);
    assert_eq!(drawn(0x12, 5, 2), [(0, 0), (0, 1), (0, 2)]);
    assert_eq!(drawn(0x13, 5, 2), [(0, 0), (-1, 0), (-2, 1), (-3, 1), (-4, 2), (-5, 2)]);
    assert_eq!(drawn(0x14, 5, 2), [(0, 0), (0, -1), (0, -2)]);
    assert_eq!(drawn(0x15, 5, 2), [(0, 0), (1, 0), (2, -1), (3, -1), (4, -2), (5, -2)]);
    assert_eq!(drawn(0x16, 5, 2), [(0, 0), (-1, 0), (-2, 0), (-3, 0), (-4, 0), (-5, 0)]);
    assert_eq!(drawn(0x17, 5, 2), [(0, 0), (-1, 0), (-2, -1), (-3, -1), (-4, -2), (-5, -2)]);
}

#[test]
fn eight_directions_by_1_and_4() {
    assert_eq!(drawn(0x10, 1, 4), [(0, 0), (1, 0)]);
    assert_eq!(drawn(0x11, 1, 4), [(0, 0), (0, 1), (1, 2), (1, 3), (1, 4)]);
    assert_eq!(drawn(0x12, 1, 4), [(0, 0), (0, 1), (0, 2), (0, 3), (0, 4)]);
    assert_eq!(drawn(0x13, 1, 4), [(0, 0), (0, 1), (-1, 2), (-1, 3), (-1, 4)]);
    assert_eq!(drawn(0x14, 1, 4), [(0, 0), (0, -1), (0, -2), (0, -3), (0, -4)]);
    assert_eq!(drawn(0x15, 1, 4), [(0, 0), (0, -1), (1, -2), (1, -3), (1, -4)]);
    assert_eq!(drawn(0x16, 1, 4), [(0, 0), (-1, 0)]);
    assert_eq!(drawn(0x17, 1, 4), [(0, 0), (0, -1), (-1, -2), (-1, -3), (-1, -4)]);
}

// readings 55 and 62: both deltas become the larger, then an unused axis is left out
#[test]
fn eight_directions_with_the_larger_delta() {
    for (deltax, deltay) in [(3, 1), (1, 3), (3, 3), (0, 3), (3, 0)] {
        let drawn = |code| drawn(code, deltax, deltay);
        assert_eq!(drawn(0x18), [(0, 0), (1, 0), (2, 0), (3, 0)]);
        assert_eq!(drawn(0x19), [(0, 0), (1, 1), (2, 2), (3, 3)]);
        assert_eq!(drawn(0x1A), [(0, 0), (0, 1), (0, 2), (0, 3)]);
        assert_eq!(drawn(0x1B), [(0, 0), (-1, 1), (-2, 2), (-3, 3)]);
        assert_eq!(drawn(0x1C), [(0, 0), (0, -1), (0, -2), (0, -3)]);
        assert_eq!(drawn(0x1D), [(0, 0), (1, -1), (2, -2), (3, -3)]);
        assert_eq!(drawn(0x1E), [(0, 0), (-1, 0), (-2, 0), (-3, 0)]);
        assert_eq!(drawn(0x1F), [(0, 0), (-1, -1), (-2, -2), (-3, -3)]);
    }
}

// reading 55, its own example
#[test]
fn vector_18_by_1_and_9_is_ten_dots() {
    let dots = drawn(0x18, 1, 9);
    assert_eq!(dots.len(), 10);
    assert_eq!(dots[9], (9, 0));
}

#[test]
fn deltas_stay() {
    for code in 0x10..=0x1F {
        let mut card = centred();
        card.deltas(3, 1).run(code);
        assert_eq!((card.state.deltax, card.state.deltay), (3, 1));
    }
}

/// For lengths up to 3: the offsets along the shorter axis, worked out by hand.
const SHORT_OFFSETS: [[&[i32]; 4]; 4] = [
    [&[0], &[], &[], &[]],
    [&[0, 0], &[0, 1], &[], &[]],
    [&[0, 0, 0], &[0, 1, 1], &[0, 1, 2], &[]],
    [&[0, 0, 0, 0], &[0, 0, 1, 1], &[0, 1, 1, 2], &[0, 1, 2, 3]],
];

// readings 56 and 57
#[test]
fn all_short_vectors() {
    let signs = [(1, 0), (1, 1), (0, 1), (-1, 1), (0, -1), (1, -1), (-1, 0), (-1, -1)];
    for x_length in 0..4usize {
        for y_length in 0..4usize {
            for (low, (x_sign, y_sign)) in signs.into_iter().enumerate() {
                let code = (0x80 + 32 * x_length + 8 * y_length + low) as u8;
                let x_used = if x_sign == 0 { 0 } else { x_length };
                let y_used = if y_sign == 0 { 0 } else { y_length };
                let across = SHORT_OFFSETS[x_used.max(y_used)][x_used.min(y_used)];
                let place = |(i, &offset): (usize, &i32)| {
                    let (x, y) = if x_used >= y_used { (i as i32, offset) } else { (offset, i as i32) };
                    (x_sign * x, y_sign * y)
                };
                let expected: Vec<(i32, i32)> = across.iter().enumerate().map(place).collect();
                assert_eq!(drawn(code, 200, 200), expected, "{code:02X}");
            }
        }
    }
}

// reading 56, its own examples
#[test]
fn short_vectors_along_an_axis() {
    assert_eq!(drawn(0xF8, 0, 0), [(0, 0), (1, 0), (2, 0), (3, 0)]);
    assert_eq!(drawn(0x98, 0, 0), [(0, 0)]);
    assert_eq!(drawn(0x9A, 0, 0), [(0, 0), (0, 1), (0, 2), (0, 3)]);
    assert_eq!(drawn(0xE6, 0, 0), [(0, 0), (-1, 0), (-2, 0), (-3, 0)]);
}

// reading 61: within one half of the true line, and a tie goes to the greater offset
#[test]
fn every_dot_is_nearest_for_all_lengths() {
    for longer in 1..=255u8 {
        for shorter in 0..=longer {
            let mut card = Card::new(Format::Ef9366);
            card.write(1, 0).deltas(longer, shorter).command(0x11);
            let (big, small) = (i32::from(longer), i32::from(shorter));
            for i in 0..=big {
                assert_eq!(i32::from(card.state.x), i);
                let error = i32::from(card.state.y) * big - i * small;
                assert!(-big < 2 * error && 2 * error <= big, "{longer} {shorter} dot {i}");
                assert_eq!(card.grant(1), 1);
            }
            assert_eq!(card.state.work, Work::Idle);
            assert_eq!(card.place(), (u16::from(longer), u16::from(shorter)));
        }
    }
}

#[test]
fn steep_vectors_mirror_flat_ones() {
    for (longer, shorter) in [(255, 1), (255, 127), (255, 128), (200, 77), (9, 4), (8, 4), (7, 6)] {
        for (code, mirrored) in [(0x11, 0x11), (0x13, 0x15), (0x15, 0x13), (0x17, 0x17)] {
            let mut flat = Card::at(Format::Ef9366, 2000, 2000);
            let mut steep = flat.clone();
            let flat = flat.deltas(longer, shorter).places(code);
            let steep = steep.deltas(shorter, longer).places(mirrored);
            let swapped: Vec<(u16, u16)> = steep.into_iter().map(|(x, y)| (y, x)).collect();
            assert_eq!(flat, swapped);
        }
    }
}

// readings 63 and 64: on dot 0 before the first cycle; on the last before and after the last
#[test]
fn place_between_cycles() {
    let mut card = Card::new(Format::Ef9366);
    card.deltas(5, 2).command(0x11);
    assert_eq!(card.place(), (0, 0));
    for place in [(1, 0), (2, 1), (3, 1), (4, 2), (5, 2), (5, 2)] {
        card.grant(1);
        assert_eq!(card.place(), place);
    }
    assert_eq!(card.state.work, Work::Idle);
}

#[test]
fn dots_appear_one_a_cycle() {
    let mut card = Card::new(Format::Ef9366);
    card.deltas(5, 2).command(0x11);
    let dots = [(0, 0), (1, 0), (2, 1), (3, 1), (4, 2), (5, 2)];
    for used in 1..=6 {
        card.grant(1);
        assert_eq!(card.dots(), listed(&dots[..used]));
    }
}

// reading 3: a state handed in half way goes on from its place, wherever that is
#[test]
fn a_vector_taken_up_half_way() {
    let mut card = Card::at(Format::Ef9366, 50, 60);
    card.deltas(5, 2);
    card.state.work = Work::Steps { code: 0x17, done: 2 };
    // Dot 2 lies (2, 1) before the start, so the start is (52, 61) and the end (47, 59).
    assert_eq!(card.grant(9), 4);
    assert_eq!(card.dots(), listed(&[(50, 60), (49, 60), (48, 59), (47, 59)]));
    assert_eq!(card.place(), (47, 59));
}

#[test]
fn a_vector_taken_up_after_going_around() {
    let mut card = Card::at(Format::Ef9366, 1, 0);
    card.deltas(5, 2);
    card.state.work = Work::Steps { code: 0x11, done: 4 };
    // Dot 4 lies (4, 2) after the start: the start is (4093, 4094), the end (2, 0).
    assert_eq!(card.grant(9), 2);
    assert_eq!(card.dots(), [(1, 0), (2, 0)]);
    assert_eq!(card.place(), (2, 0));
}

// readings 67 and c.6: tilt and the turned bit do nothing to a vector
#[test]
fn character_bits_of_ctrl2() {
    for ctrl2 in [4, 8, 12] {
        let drawn = |code| {
            let mut card = centred();
            steps(card.write(2, ctrl2).deltas(5, 2), code)
        };
        assert_eq!(drawn(0x11), [(0, 0), (1, 0), (2, 1), (3, 1), (4, 2), (5, 2)]);
        assert_eq!(drawn(0x14), [(0, 0), (0, -1), (0, -2)]);
        assert_eq!(drawn(0x1B), [(0, 0), (-1, 1), (-2, 2), (-3, 3), (-4, 4), (-5, 5)]);
        assert_eq!(drawn(0x1E), [(0, 0), (-1, 0), (-2, 0), (-3, 0), (-4, 0), (-5, 0)]);
        assert_eq!(drawn(0xE9), [(0, 0), (1, 0), (2, 1), (3, 1)]);
        assert_eq!(drawn(0xBF), [(0, 0), (0, -1), (-1, -2), (-1, -3)]);
    }
}

// reading c.6: every code at every line type, against the straight one
#[test]
fn tilt_changes_no_vector() {
    for code in (0x10..=0x1F).chain(0x80..=0xFF) {
        for line_type in 0..4 {
            let drawn = |ctrl2| {
                let mut card = centred();
                let places = card.write(2, ctrl2).deltas(19, 7).places(code);
                (places, card.dots(), card.place())
            };
            let straight = drawn(line_type);
            assert_eq!(drawn(line_type + 4), straight, "{code:02X}");
            assert_eq!(drawn(line_type + 12), straight, "{code:02X}");
        }
    }
}

#[test]
fn csize_does_nothing_to_a_vector() {
    let mut card = centred();
    card.write(3, 0x00);
    assert_eq!(steps(card.deltas(1, 1), 0x11), [(0, 0), (1, 1)]);
}
