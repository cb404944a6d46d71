//! Plain PBM files, and the number each call answers; a refusal must leave everything as it was.

use super::{picture, picture_bytes, size};
use second::{pbm_read, pbm_write, Format, PbmAnswer};

pub fn file_bytes(format: Format) -> usize {
    match format {
        Format::Ef9366 => 133_131,
        Format::Ef9365High => 266_251,
        Format::Ef9365Low => 66_571,
    }
}

pub fn head(format: Format) -> &'static [u8] {
    match format {
        Format::Ef9366 => b"P1\n512 256\n",
        Format::Ef9365High => b"P1\n512 512\n",
        Format::Ef9365Low => b"P1\n256 256\n",
    }
}

/// The dots of a picture as digits, top line first, nothing between them.
pub fn digits(format: Format, picture: &[u8]) -> Vec<u8> {
    let bytes_in_line = size(format).0 / 8;
    let top_first = picture.chunks(bytes_in_line).rev().flatten();
    top_first.flat_map(|byte| (0..8).map(move |bit| b'0' + byte / (1 << bit) % 2)).collect()
}

/// The file that a picture is written as.
pub fn file(format: Format, picture: &[u8]) -> Vec<u8> {
    let lines: Vec<Vec<u8>> =
        digits(format, picture).chunks(64).map(|line| [line, &b"\n"[..]].concat()).collect();
    [head(format), &lines.concat()].concat()
}

/// What is written into a buffer of just the right length.
pub fn written(format: Format, picture: &[u8]) -> Vec<u8> {
    let mut buffer = vec![0xA5; file_bytes(format)];
    let answer = pbm_write(format, picture, &mut buffer);
    assert_eq!(answer, PbmAnswer { number: 0, value: file_bytes(format) as u32 });
    buffer
}

/// An accepted file, read over a picture of other dots.
pub fn read(format: Format, file: &[u8]) -> Vec<u8> {
    let [over_dark, over_lit] = [0x00, 0xFF].map(|byte| {
        let mut lent = picture(format, byte);
        assert_eq!(pbm_read(format, file, &mut lent), PbmAnswer { number: 0, value: 0 });
        lent
    });
    assert!(over_dark == over_lit);
    over_dark
}

pub fn write_number(format: Format, bytes: usize, buffer_bytes: usize) -> u8 {
    let mut buffer = vec![0xA5; buffer_bytes];
    let answer = pbm_write(format, &vec![0x5A; bytes], &mut buffer);
    if answer.number != 0 {
        assert_eq!(answer.value, 0);
        assert!(buffer.iter().all(|&byte| byte == 0xA5));
    }
    answer.number
}

pub fn read_number_into(format: Format, file: &[u8], bytes: usize) -> u8 {
    let mut lent = vec![0x5A; bytes];
    let answer = pbm_read(format, file, &mut lent);
    assert_eq!(answer.value, 0);
    if answer.number != 0 {
        assert!(lent.iter().all(|&byte| byte == 0x5A));
    }
    answer.number
}

pub fn read_number(format: Format, file: &[u8]) -> u8 {
    read_number_into(format, file, picture_bytes(format))
}
