//! Damaged plain PBM files: the number, and a picture left whole.

mod common;

use common::pbm::{file, read, read_number};
use common::random::Random;
use common::{picture, picture_bytes, FORMATS};
use second::{pbm_read, Format, PbmAnswer};

const LOW: Format = Format::Ef9365Low;

/// A written file of 66,571 bytes: `P1`, LF, `256 256`, LF, then 1,024 lines.
fn low_file() -> Vec<u8> {
    file(LOW, &Random(0x17).bytes(picture_bytes(LOW)))
}

fn with_byte(file: &[u8], place: usize, byte: u8) -> Vec<u8> {
    let mut changed = file.to_vec();
    changed[place] = byte;
    changed
}

// reading a.17: only the line feed at the end may be missing
#[test]
fn cut_files() {
    let whole = low_file();
    let early = 0..200;
    let late = 66_300..=66_571;
    for length in early.chain((200..66_300).step_by(997)).chain(late) {
        let expected = match length {
            // to `P1`, LF, `256 `
            0..=7 => 10,
            // a height of 2, of 25
            8..=9 => 11,
            10..=66_569 => 12,
            _ => 0,
        };
        assert_eq!(read_number(LOW, &whole[..length]), expected, "{length}");
    }
}

/// The head `P1`, LF, `256 256`, LF with one byte of it changed; the dots follow.
fn number_of_changed_head(place: usize, byte: u8) -> u8 {
    let white = b" \t\r\n".contains(&byte);
    let parts = white || byte == b'#';
    let digit = byte.is_ascii_digit();
    match place {
        0 | 1 => 10,
        2 if white => 0,
        // `P1#256 256`: the first two lines of dots are the numbers
        2 if parts => 11,
        // a width of another value or cut short; a comment leaves the height to the dots
        3..=5 if digit || parts => 11,
        6 if white => 0,
        // `2560256`, or `256#256`: the height is the first line of dots
        6 if digit || parts => 11,
        7 if digit || parts => 11,
        // a height of 2 or 25, whatever is stuck to it (reading a.12)
        8 | 9 => 11,
        10 if white => 0,
        10 if digit => 11,
        // the first line of dots is a comment's, or the byte is a bad one
        10 => 12,
        _ => 10,
    }
}

#[test]
fn every_byte_of_the_head_changed() {
    let whole = low_file();
    for place in 0..11 {
        for byte in 0..=255 {
            let expected = if byte == whole[place] { 0 } else { number_of_changed_head(place, byte) };
            assert_eq!(read_number(LOW, &with_byte(&whole, place, byte)), expected, "{place} {byte:02X}");
        }
    }
}

// reading a.18: 12 at the very last dot too
#[test]
fn a_dot_changed() {
    let whole = low_file();
    for place in [11, 12, 74, 76, 33_000, 66_506, 66_568, 66_569] {
        for byte in 0..=255 {
            let expected = if b"01".contains(&byte) { 0 } else { 12 };
            assert_eq!(read_number(LOW, &with_byte(&whole, place, byte)), expected, "{place} {byte:02X}");
        }
    }
}

#[test]
fn a_line_feed_between_dots_changed() {
    let whole = low_file();
    for place in [75, 140, 33_290, 66_505] {
        for byte in 0..=255 {
            let expected = if b" \t\r\n01".contains(&byte) { 0 } else { 12 };
            assert_eq!(read_number(LOW, &with_byte(&whole, place, byte)), expected, "{place} {byte:02X}");
        }
    }
}

// a dot too many shifts those after it, and the last is ignored
#[test]
fn a_dot_added() {
    let dark = file(LOW, &picture(LOW, 0));
    let mut expected = picture(LOW, 0);
    // the first dot of the second quarter of the top line: (64, 255)
    expected[8_168] = 0x01;
    assert!(read(LOW, &with_byte(&dark, 75, b'1')) == expected);
    let mut lit_last = dark.clone();
    lit_last[66_569] = b'1';
    // all later dots go one place on, so the lit one falls off the end
    assert!(read(LOW, &with_byte(&lit_last, 75, b'0')) == picture(LOW, 0));
}

// reading a.18: a refusal writes nothing, however many good dots come first
#[test]
fn the_picture_stays_whole() {
    let mut random = Random(0x28);
    for format in FORMATS {
        let before = random.bytes(picture_bytes(format));
        let good = file(format, &random.bytes(picture_bytes(format)));
        let last_dot = good.len() - 2;
        let bad_last = with_byte(&good, last_dot, b'2');
        let no_last = good[..last_dot].to_vec();
        let wide = [b"P1\n7", &good[3..]].concat();
        let nameless = with_byte(&good, 1, b'4');
        for (file, number) in [(bad_last, 12), (no_last, 12), (wide, 11), (nameless, 10)] {
            let mut lent = before.clone();
            assert_eq!(pbm_read(format, &file, &mut lent), PbmAnswer { number, value: 0 });
            assert!(lent == before, "{format:?} {number}");
        }
    }
}

/// The rules once more, a byte at a time, for the EF9365 with FMAT low.
fn number_by_bytes(file: &[u8]) -> u8 {
    if !file.starts_with(b"P1") {
        return 10;
    }
    let mut rest = &file[2..];
    let mut numbers = Vec::new();
    for _ in 0..2 {
        let after = skip(rest);
        let digits = after.iter().position(|byte| !byte.is_ascii_digit()).unwrap_or(after.len());
        if after.len() == rest.len() || digits == 0 {
            return 10;
        }
        let value = after[..digits]
            .iter()
            .fold(0_u64, |sum, digit| sum.saturating_mul(10).saturating_add(u64::from(digit - b'0')));
        numbers.push(value);
        rest = &after[digits..];
    }
    if numbers != [256, 256] {
        return 11;
    }
    for _ in 0..65_536 {
        rest = skip(rest);
        match rest {
            [b'0' | b'1', after @ ..] => rest = after,
            _ => return 12,
        }
    }
    0
}

/// Past white space and comments, if there are any.
fn skip(mut rest: &[u8]) -> &[u8] {
    loop {
        match rest {
            [b' ' | b'\t' | b'\r' | b'\n', after @ ..] => rest = after,
            [b'#', ..] => match rest.iter().position(|&byte| byte == b'\n') {
                Some(end) => rest = &rest[end..],
                None => return &[],
            },
            _ => return rest,
        }
    }
}

#[test]
fn heads_at_random() {
    const PIECES: [&[u8]; 16] = [
        b" ", b"\t", b"\r", b"\n", b"\n", b"#", b"#c\n", b"256", b"256", b"0256", b" 256 ", b"25", b"6",
        b"0", b"x", b"1",
    ];
    let mut random = Random(0x39);
    let mut seen = [0; 4];
    for turn in 0..3_000 {
        let start: &[u8] =
            random.pick(&[&b"P1"[..], b"P1", b"P1\n256", b"P1\n256 256", b"P1\n256 256\n", b"P"]);
        let mut file = start.to_vec();
        for _ in 0..random.below(7) {
            file.extend(random.pick(&PIECES));
        }
        file.push(b'\n');
        file.resize(file.len() + 65_530 + random.below(8) as usize, b'1');
        let number = number_by_bytes(&file);
        assert_eq!(read_number(LOW, &file), number, "{turn} {:?}", String::from_utf8_lossy(&file[..60]));
        seen[usize::from(number.saturating_sub(9))] += 1;
    }
    assert!(seen.iter().all(|&count| count > 100), "{seen:?}");
}
