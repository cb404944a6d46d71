//! Plain PBM files, each damaged in one way, and what is due for it: said without asking either card.

pub mod dots;
mod head;

use crate::random::Random;
use std::ops::RangeInclusive;

/// What reading must come to.
#[derive(Clone, Copy, PartialEq, Eq, Debug)]
pub enum Due {
    /// The picture that was written.
    Same,
    /// Some picture: which one depends on the dots.
    Accepted,
    Refused(u8),
    /// That depends on what was drawn.
    Any,
}

/// Takes a file as it is written.
type Made = fn(&mut Random, Vec<u8>) -> Vec<u8>;

pub const DAMAGES: [(&str, Due, Made); 38] = [
    ("as written", Due::Same, |_, file| file),
    ("no last line feed", Due::Same, |_, file| cut(file, 1)),
    ("a tail after the last dot", Due::Same, with_tail),
    ("zeros before a number", Due::Same, head::zeros_before),
    ("comments in the head", Due::Same, head::comments_in_head),
    ("comments among the dots", Due::Same, dots::comments_among_dots),
    ("white space among the dots", Due::Same, dots::white_space_among_dots),
    ("no white space among the dots", Due::Same, |_, file| dots::without_white_space(file)),
    ("a blank after each dot", Due::Same, |_, file| dots::blanks_after_dots(file)),
    ("lines ended by CR and LF", Due::Same, |_, file| dots::lines_ended_by_cr_lf(file)),
    ("a dot too many", Due::Accepted, |random, file| dots::inserted(random, file, b"01")),
    ("no byte at all", Due::Refused(10), |_, _| Vec::new()),
    ("no P1", Due::Refused(10), head::without_p1),
    ("something before P1", Due::Refused(10), head::before_p1),
    ("nothing that parts P1 from the width", Due::Refused(10), |_, file| spliced(file, 2, 1, b"")),
    ("an end before the height", Due::Refused(10), head::end_before_height),
    ("a bad character before a number", Due::Refused(10), head::bad_before_number),
    ("numbers parted by a bad character", Due::Refused(10), |random, file| {
        let byte = bad(random);
        spliced(file, BETWEEN, 1, &[byte])
    }),
    ("a comment without end in the head", Due::Refused(10), |random, file| {
        let place = random.pick(&[2, WIDTH, BETWEEN, HEIGHT]);
        comment_without_end(file, place)
    }),
    ("a number that is right in 8 bits", Due::Refused(11), |random, file| head::wrapping(random, file, 8)),
    ("a number that is right in 16 bits", Due::Refused(11), |random, file| head::wrapping(random, file, 16)),
    ("a number that is right in 32 bits", Due::Refused(11), |random, file| head::wrapping(random, file, 32)),
    ("a number that is right in 64 bits", Due::Refused(11), |random, file| head::wrapping(random, file, 64)),
    ("another number", Due::Refused(11), head::another_number),
    ("a number left out", Due::Refused(11), |random, file| {
        spliced(file, random.pick(&[WIDTH, HEIGHT]), 3, b"")
    }),
    ("a number cut in two", Due::Refused(11), head::number_cut_in_two),
    ("the height and the dots not parted", Due::Refused(11), |_, file| spliced(file, AFTER_HEIGHT, 1, b"")),
    ("a bad character behind the height", Due::Refused(12), |random, file| {
        let byte = bad(random);
        spliced(file, AFTER_HEIGHT, 0, &[byte])
    }),
    ("no last dot", Due::Refused(12), |_, file| cut(file, 2)),
    ("a bad last dot", Due::Refused(12), dots::bad_last_dot),
    ("a bad character among the dots", Due::Refused(12), |random, file| {
        let byte = dots::bad_dot(random);
        dots::inserted(random, file, &[byte])
    }),
    ("a dot left out", Due::Refused(12), dots::dot_left_out),
    ("a comment among the dots that CR does not end", Due::Refused(12), dots::comment_with_cr),
    ("a comment without end among the dots", Due::Refused(12), |random, file| {
        let place = place(random, &(AFTER_HEIGHT..=file.len() - 2));
        comment_without_end(file, place)
    }),
    ("cut anywhere", Due::Any, cut_anywhere),
    ("a byte of the head changed", Due::Any, |random, file| changed(random, file, 0..=DOT)),
    ("a byte changed", Due::Any, |random, file| {
        let last = file.len() - 1;
        changed(random, file, 0..=last)
    }),
    ("hostile bytes", Due::Any, |random, _| hostile(random)),
];

// The head of a file as it is written: P1, LF, three digits, a blank, three digits, LF; then the first dot.
const WIDTH: usize = 3;
const BETWEEN: usize = 6;
const HEIGHT: usize = 7;
const AFTER_HEIGHT: usize = 10;
const DOT: usize = 11;

const WHITE: &[u8] = b" \t\r\n";
/// Near misses of what may stand in a file, and bytes that never may.
const BAD: &[u8] = b"\0\x01\x0b\x0c\x1f!/:;aPx+-.,_\x7f\x80\x8a\xa0\xb0\xb1\xff";
const HOSTILE: &[u8] = b"PP11 \t\r\n#00011125621\0\x0b/2x+-\xff";

/// Nothing that parts numbers or dots, and no digit.
fn bad(random: &mut Random) -> u8 {
    let byte = if random.flag() { random.byte() } else { random.pick(BAD) };
    if byte.is_ascii_digit() || byte == b'#' || WHITE.contains(&byte) {
        b'?'
    } else {
        byte
    }
}

fn place(random: &mut Random, among: &RangeInclusive<usize>) -> usize {
    among.start() + random.below((among.end() - among.start() + 1) as u64) as usize
}

/// So many bytes at the place taken out, and others put there.
fn spliced(mut file: Vec<u8>, place: usize, out: usize, bytes: &[u8]) -> Vec<u8> {
    file.splice(place..place + out, bytes.iter().copied());
    file
}

fn cut(mut file: Vec<u8>, bytes: usize) -> Vec<u8> {
    file.truncate(file.len() - bytes);
    file
}

/// In the head and close to the end as often as anywhere.
fn cut_anywhere(random: &mut Random, mut file: Vec<u8>) -> Vec<u8> {
    let most = file.len() as u64;
    let length = match random.below(3) {
        0 => random.below(20),
        1 => most - random.below(70),
        _ => random.below(most),
    };
    file.truncate(length as usize);
    file
}

fn changed(random: &mut Random, mut file: Vec<u8>, among: RangeInclusive<usize>) -> Vec<u8> {
    let place = place(random, &among);
    file[place] = if random.flag() { random.byte() } else { random.pick(HOSTILE) };
    file
}

fn with_tail(random: &mut Random, file: Vec<u8>) -> Vec<u8> {
    let mut file = if random.flag() { cut(file, 1) } else { file };
    let length = random.pick(&[1, 1, 2, 100, 3_000]);
    let start = file.len();
    file.resize(start + length, 0);
    random.fill(&mut file[start..]);
    file[start] = random.pick(b"0012#\n\0x\xff");
    file
}

/// Any bytes between # and LF, and among them often what would count outside of a comment.
fn comment(random: &mut Random) -> Vec<u8> {
    let mut text: Vec<u8> = (0..random.below(40)).map(|_| random.byte()).collect();
    text.iter_mut().for_each(|byte| {
        if random.flag() || *byte == b'\n' {
            *byte = random.pick(b"01# \r\tP512")
        }
    });
    [b"#", &text[..], b"\n"].concat()
}

/// No line feed follows.
fn comment_without_end(mut file: Vec<u8>, place: usize) -> Vec<u8> {
    let rest = file.split_off(place);
    file.push(b'#');
    file.extend(rest.into_iter().filter(|byte| *byte != b'\n'));
    file
}

/// Half of them with a good head for some format.
fn hostile(random: &mut Random) -> Vec<u8> {
    let head: &[u8] =
        random.pick(&[&b""[..], b"P1", b"P1\n", b"P1\n512 256\n", b"P1 512 512 ", b"P1\t256\r256\n"]);
    let length = random.pick(&[0, 1, 10, 100, 70_000]);
    let noise: Vec<u8> = (0..length).map(|_| random.pick(HOSTILE)).collect();
    [head, &noise].concat()
}
