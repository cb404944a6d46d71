//! Command codes by class.

use crate::random::Random;

#[derive(Clone, Copy, PartialEq, Eq, Debug)]
pub enum Class {
    LongVector,
    ShortVector,
    Character,
    Block,
    OneCycle,
    Clear,
    Pen,
    NoTime,
}

pub const CLASSES: [(Class, &str); 8] = [
    (Class::LongVector, "vectors 10 to 1F"),
    (Class::ShortVector, "short vectors 80 to FF"),
    (Class::Character, "characters 20 to 7F"),
    (Class::Block, "blocks 0A and 0B"),
    (Class::OneCycle, "0F"),
    (Class::Clear, "clears 04, 06, 07 and 0C"),
    (Class::Pen, "pen 08 and 09"),
    (Class::NoTime, "00 to 03, 05, 0D and 0E"),
];

pub fn class_of(code: u8) -> Class {
    match code {
        0x10..=0x1F => Class::LongVector,
        0x80..=0xFF => Class::ShortVector,
        0x20..=0x7F => Class::Character,
        0x0A | 0x0B => Class::Block,
        0x0F => Class::OneCycle,
        0x04 | 0x06 | 0x07 | 0x0C => Class::Clear,
        0x08 | 0x09 => Class::Pen,
        0x00..=0x03 | 0x05 | 0x0D | 0x0E => Class::NoTime,
    }
}

/// Commands as a host would mix them; a reset (07) is rare, as it undoes what a run has set up.
pub fn command(random: &mut Random) -> u8 {
    let class = random.weighted(&[
        (28, Class::LongVector),
        (15, Class::ShortVector),
        (18, Class::Character),
        (9, Class::Block),
        (3, Class::OneCycle),
        (10, Class::Clear),
        (9, Class::Pen),
        (10, Class::NoTime),
    ]);
    match class {
        Class::Clear => random.weighted(&[(4, 0x04), (3, 0x06), (1, 0x07), (6, 0x0C)]),
        other => in_class(random, other),
    }
}

pub fn in_class(random: &mut Random, class: Class) -> u8 {
    match class {
        Class::LongVector => random.among(0x10, 0x1F) as u8,
        Class::ShortVector => random.among(0x80, 0xFF) as u8,
        Class::Character => random.among(0x20, 0x7F) as u8,
        Class::Block => random.pick(&[0x0A, 0x0B]),
        Class::OneCycle => 0x0F,
        Class::Clear => random.pick(&[0x04, 0x06, 0x07, 0x0C]),
        Class::Pen => random.pick(&[0x08, 0x09]),
        Class::NoTime => random.pick(&[0x00, 0x01, 0x02, 0x03, 0x05, 0x0D, 0x0E]),
    }
}

/// A command that uses write cycles.
pub fn stepping(random: &mut Random) -> u8 {
    let class = random.weighted(&[
        (8, Class::LongVector),
        (4, Class::ShortVector),
        (5, Class::Character),
        (3, Class::Block),
        (1, Class::OneCycle),
    ]);
    in_class(random, class)
}
