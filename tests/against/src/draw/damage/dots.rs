//! Damages of the dots and of what parts them.

use super::{bad, comment, place, spliced, DOT, WHITE};
use crate::random::Random;
use crate::scene::LONGEST_FILE;

/// Neither a dot nor what parts dots.
pub fn bad_dot(random: &mut Random) -> u8 {
    if random.percent(20) {
        random.pick(b"23456789")
    } else {
        bad(random)
    }
}

/// One of the bytes put in somewhere before a dot or the end of a line of dots.
pub fn inserted(random: &mut Random, file: Vec<u8>, bytes: &[u8]) -> Vec<u8> {
    let place = place(random, &(DOT..=file.len() - 2));
    let byte = random.pick(bytes);
    spliced(file, place, 0, &[byte])
}

pub fn comments_among_dots(random: &mut Random, mut file: Vec<u8>) -> Vec<u8> {
    for _ in 0..random.among(1, 20) {
        let place = place(random, &(DOT..=file.len()));
        // one that falls into another is a part of it, up to its line feed
        if !in_comment(&file, place) {
            file = spliced(file, place, 0, &comment(random));
        }
    }
    file
}

fn in_comment(file: &[u8], place: usize) -> bool {
    file[..place].iter().rev().take_while(|byte| **byte != b'\n').any(|byte| *byte == b'#')
}

pub fn white_space_among_dots(random: &mut Random, mut file: Vec<u8>) -> Vec<u8> {
    for _ in 0..random.among(1, 20) {
        let place = place(random, &(DOT..=file.len()));
        let white: Vec<u8> = (0..random.among(1, 100)).map(|_| random.pick(WHITE)).collect();
        file = spliced(file, place, 0, &white);
    }
    file
}

pub fn without_white_space(mut file: Vec<u8>) -> Vec<u8> {
    let dots = file.split_off(DOT);
    file.extend(dots.into_iter().filter(|byte| *byte != b'\n'));
    file
}

/// As many programs write it; of the largest picture only the dots that have room.
pub fn blanks_after_dots(mut file: Vec<u8>) -> Vec<u8> {
    let dots = file.split_off(DOT);
    let parted = dots.len().min(LONGEST_FILE - DOT - dots.len());
    file.extend(dots[..parted].iter().flat_map(|byte| [*byte, b' ']));
    file.extend(&dots[parted..]);
    file
}

pub fn lines_ended_by_cr_lf(file: Vec<u8>) -> Vec<u8> {
    let lines: Vec<&[u8]> = file.split(|byte| *byte == b'\n').collect();
    lines.join(&b"\r\n"[..])
}

/// White space or a comment will not do either.
pub fn bad_last_dot(random: &mut Random, mut file: Vec<u8>) -> Vec<u8> {
    let last = file.len() - 2;
    file[last] = if random.percent(70) { bad_dot(random) } else { random.pick(b"# \n\t\r") };
    file
}

/// A place with a dot on it: behind every line feed but the last there is one.
fn dot_place(random: &mut Random, file: &[u8]) -> usize {
    let place = place(random, &(DOT..=file.len() - 2));
    if file[place] == b'\n' {
        place + 1
    } else {
        place
    }
}

pub fn dot_left_out(random: &mut Random, file: Vec<u8>) -> Vec<u8> {
    let place = dot_place(random, &file);
    spliced(file, place, 1, b"")
}

/// The dots behind it on the line are the comment's.
pub fn comment_with_cr(random: &mut Random, file: Vec<u8>) -> Vec<u8> {
    let place = dot_place(random, &file);
    spliced(file, place, 0, b"#c\r")
}
