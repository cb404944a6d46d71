//! Damages of P1 and the two numbers.

use super::{bad, comment, place, spliced, AFTER_HEIGHT, BETWEEN, DOT, HEIGHT, WHITE, WIDTH};
use crate::random::Random;

pub fn zeros_before(random: &mut Random, file: Vec<u8>) -> Vec<u8> {
    let zeros = vec![b'0'; random.pick(&[1, 2, 5, 20, 300, 20_000])];
    spliced(file, random.pick(&[WIDTH, HEIGHT]), 0, &zeros)
}

/// From behind P1 on, before and behind each number.
pub fn comments_in_head(random: &mut Random, mut file: Vec<u8>) -> Vec<u8> {
    for place in [DOT, AFTER_HEIGHT, HEIGHT, BETWEEN, WIDTH, 2] {
        if random.flag() {
            file = spliced(file, place, 0, &comment(random));
        }
    }
    file
}

pub fn without_p1(random: &mut Random, file: Vec<u8>) -> Vec<u8> {
    let start: &[u8] =
        random.pick(&[&b"P2"[..], b"P4", b"p1", b"P", b"1", b"1P", b"P 1", b"PP1", b"", b"\0\0"]);
    spliced(file, 0, 2, start)
}

pub fn before_p1(random: &mut Random, file: Vec<u8>) -> Vec<u8> {
    let start: &[u8] = random.pick(&[&b" "[..], b"\n", b"\t", b"\r\n", b"#c\n", b"\0", b"\xef\xbb\xbf"]);
    spliced(file, 0, 0, start)
}

/// What is left may end in white space and comments.
pub fn end_before_height(random: &mut Random, mut file: Vec<u8>) -> Vec<u8> {
    file.truncate(place(random, &(2..=HEIGHT)));
    for _ in 0..random.below(3) {
        file.push(random.pick(WHITE));
    }
    if random.flag() {
        file.extend(comment(random));
    }
    file
}

pub fn bad_before_number(random: &mut Random, file: Vec<u8>) -> Vec<u8> {
    let byte = bad(random);
    spliced(file, random.pick(&[WIDTH, HEIGHT]), 0, &[byte])
}

fn number_at(file: &[u8], place: usize) -> u128 {
    file[place..place + 3].iter().fold(0, |sum, digit| 10 * sum + u128::from(digit - b'0'))
}

/// The right number and, once or more times, 2 to the number of bits.
pub fn wrapping(random: &mut Random, file: Vec<u8>, bits: u32) -> Vec<u8> {
    let place = random.pick(&[WIDTH, HEIGHT]);
    let times: u128 = random.pick(&[1, 1, 1, 2, 65_535]);
    let number = (times << bits) + number_at(&file, place);
    spliced(file, place, 3, number.to_string().as_bytes())
}

pub fn another_number(random: &mut Random, file: Vec<u8>) -> Vec<u8> {
    let place = random.pick(&[WIDTH, HEIGHT]);
    let right = number_at(&file, place);
    let any = u128::from(random.below(2_000));
    let other = random.pick(&[0, 1, 51, 255, 256, 257, 511, 512, 513, 1_024, 5_120, any]);
    let other = if other == right { right + 1 } else { other };
    spliced(file, place, 3, other.to_string().as_bytes())
}

/// By white space or a comment: two numbers, and the height is a dot or the other half.
pub fn number_cut_in_two(random: &mut Random, file: Vec<u8>) -> Vec<u8> {
    let place = random.pick(&[WIDTH + 1, WIDTH + 2, HEIGHT + 1, HEIGHT + 2]);
    let part = if random.flag() { vec![random.pick(WHITE)] } else { comment(random) };
    spliced(file, place, 0, &part)
}
