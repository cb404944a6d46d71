//! A picture as plain PBM, out and back: bytes, lengths, buffers, refusals 2 and 9.

mod common;

use common::pbm::{digits, file, file_bytes, head, read, read_number_into, write_number, written};
use common::random::Random;
use common::{lit, picture, picture_bytes, Card, FORMATS};
use second::{pbm_read, pbm_write, Format, PbmAnswer};

const DARK_LINE: &[u8] = b"0000000000000000000000000000000000000000000000000000000000000000\n";
const LIT_LINE: &[u8] = b"1111111111111111111111111111111111111111111111111111111111111111\n";

// out

// reading a.1
#[test]
fn heads() {
    assert!(written(Format::Ef9366, &picture(Format::Ef9366, 0)).starts_with(b"P1\n512 256\n0"));
    assert!(written(Format::Ef9365High, &picture(Format::Ef9365High, 0)).starts_with(b"P1\n512 512\n0"));
    assert!(written(Format::Ef9365Low, &picture(Format::Ef9365Low, 0)).starts_with(b"P1\n256 256\n0"));
}

// readings a.1 and a.21: past 16 bits
#[test]
fn the_value_is_the_bytes_written() {
    for (format, bytes) in
        [(Format::Ef9366, 133_131), (Format::Ef9365High, 266_251), (Format::Ef9365Low, 66_571)]
    {
        let mut buffer = vec![0xA5; 300_000];
        let answer = pbm_write(format, &picture(format, 0), &mut buffer);
        assert_eq!(answer, PbmAnswer { number: 0, value: bytes });
    }
}

// reading a.2: a line of the screen takes eight lines of the file, or four
#[test]
fn dark_and_lit_pictures() {
    for (format, lines) in [(Format::Ef9366, 2_048), (Format::Ef9365High, 4_096), (Format::Ef9365Low, 1_024)]
    {
        for (byte, line) in [(0x00, DARK_LINE), (0xFF, LIT_LINE)] {
            let expected = [head(format), &line.repeat(lines)].concat();
            assert!(written(format, &picture(format, byte)) == expected, "{format:?} {byte:02X}");
        }
    }
}

/// Where in the file the digit of a dot is, for the EF9366.
fn place_of_9366(x: usize, y: usize) -> usize {
    let dots_before = (255 - y) * 512 + x;
    11 + dots_before + dots_before / 64
}

/// One lit dot, and the byte of the file that shows it.
fn one_dot(format: Format, byte: usize, bit: u8, place: usize) {
    let mut one = picture(format, 0);
    one[byte] = bit;
    let mut expected = file(format, &picture(format, 0));
    expected[place] = b'1';
    assert!(written(format, &one) == expected, "{format:?} {byte} {bit:02X}");
    assert!(read(format, &expected) == one, "{format:?} {byte} {bit:02X}");
}

// reading a.1: 11 bytes of head, and a line feed after each 64 dots
#[test]
fn corners() {
    // top left, top right, bottom left, bottom right
    one_dot(Format::Ef9366, 16_320, 0x01, 11);
    one_dot(Format::Ef9366, 16_383, 0x80, 11 + 511 + 7);
    one_dot(Format::Ef9366, 0, 0x01, 133_130 - 519);
    one_dot(Format::Ef9366, 63, 0x80, 133_129);
    one_dot(Format::Ef9365High, 32_704, 0x01, 11);
    one_dot(Format::Ef9365High, 32_767, 0x80, 11 + 511 + 7);
    one_dot(Format::Ef9365High, 0, 0x01, 266_250 - 519);
    one_dot(Format::Ef9365High, 63, 0x80, 266_249);
    one_dot(Format::Ef9365Low, 8_160, 0x01, 11);
    one_dot(Format::Ef9365Low, 8_191, 0x80, 11 + 255 + 3);
    one_dot(Format::Ef9365Low, 0, 0x01, 66_570 - 259);
    one_dot(Format::Ef9365Low, 31, 0x80, 66_569);
}

#[test]
fn dots_inside() {
    // the line below the top, the 64th dot and the next, neighbours in one byte
    one_dot(Format::Ef9366, 16_256, 0x01, 11 + 520);
    one_dot(Format::Ef9366, 16_327, 0x80, 11 + 63);
    one_dot(Format::Ef9366, 16_328, 0x01, 11 + 65);
    one_dot(Format::Ef9366, 16_320, 0x02, 12);
    // (300, 100), byte 6,437 bit 4 by document 01
    one_dot(Format::Ef9366, 6_437, 0x10, place_of_9366(300, 100));
    assert_eq!(place_of_9366(300, 100), 80_915);
}

#[test]
fn a_drawn_vector() {
    let mut card = Card::new(Format::Ef9366);
    card.deltas(5, 2).run(0x11);
    let mut expected = file(Format::Ef9366, &picture(Format::Ef9366, 0));
    for (x, y) in [(0, 0), (1, 0), (2, 1), (3, 1), (4, 2), (5, 2)] {
        expected[place_of_9366(x, y)] = b'1';
    }
    assert!(written(Format::Ef9366, &card.picture) == expected);
}

#[test]
fn a_vector_comes_back() {
    let mut card = Card::new(Format::Ef9366);
    card.deltas(5, 2).run(0x11);
    let back = read(Format::Ef9366, &written(Format::Ef9366, &card.picture));
    assert_eq!(lit(Format::Ef9366, &back), [(0, 0), (1, 0), (2, 1), (3, 1), (4, 2), (5, 2)]);
}

#[test]
fn written_bytes_of_any_picture() {
    let mut random = Random(0xA1);
    for format in FORMATS {
        for _ in 0..4 {
            let dots = random.bytes(picture_bytes(format));
            assert!(written(format, &dots) == file(format, &dots), "{format:?}");
        }
    }
}

// reading a.20: later bytes stay
#[test]
fn later_bytes_of_the_buffer() {
    for format in FORMATS {
        let right = file_bytes(format);
        for later in [0, 1, 2, 64, 1_000] {
            let mut buffer = vec![0xA5; right + later];
            let answer = pbm_write(format, &picture(format, 0x5A), &mut buffer);
            assert_eq!(answer, PbmAnswer { number: 0, value: right as u32 });
            assert!(buffer[..right] == file(format, &picture(format, 0x5A)));
            assert!(buffer[right..] == vec![0xA5; later]);
        }
    }
}

// refusals of the call out

// reading a.20: exactly enough is good, one less is short
#[test]
fn short_buffers() {
    for (format, right) in
        [(Format::Ef9366, 133_131), (Format::Ef9365High, 266_251), (Format::Ef9365Low, 66_571)]
    {
        let bytes = picture_bytes(format);
        assert_eq!(write_number(format, bytes, right), 0);
        assert_eq!(write_number(format, bytes, right + 1), 0);
        for short in [0, 1, 2, 11, 64, bytes, right - 65, right - 2, right - 1] {
            assert_eq!(write_number(format, bytes, short), 9, "{format:?} {short}");
        }
    }
}

// reading a.19: 2 goes before 9
#[test]
fn pictures_of_another_length_out() {
    for format in FORMATS {
        let right = picture_bytes(format);
        for wrong in [0, 1, right - 1, right + 1, right / 2, right * 2] {
            for buffer_bytes in [0, 1, file_bytes(format) - 1, file_bytes(format), 600_000] {
                assert_eq!(write_number(format, wrong, buffer_bytes), 2, "{format:?} {wrong}");
            }
        }
    }
}

// in

// reading a.19: 2 goes before 10, 11 and 12, and 9 never comes
#[test]
fn pictures_of_another_length_in() {
    for format in FORMATS {
        let right = picture_bytes(format);
        let good = file(format, &picture(format, 0x5A));
        let cut = &good[..good.len() - 2];
        let files: [(&[u8], u8); 6] =
            [(&good, 0), (b"", 10), (b"P2\n", 10), (b"P1 256", 10), (b"P1 7 7\n", 11), (cut, 12)];
        for (file, number) in files {
            assert_eq!(read_number_into(format, file, right), number);
            for wrong in [0, 1, right - 1, right + 1, right / 2, right * 2] {
                assert_eq!(read_number_into(format, file, wrong), 2, "{format:?} {wrong} {number}");
            }
        }
    }
}

// "Reading what was written gives the same picture."
#[test]
fn round_trips() {
    let mut random = Random(0xB2);
    for format in FORMATS {
        let same = [0x00, 0x01, 0x5A, 0x80, 0xFF].map(|byte| picture(format, byte));
        let mixed = [(); 4].map(|()| random.bytes(picture_bytes(format)));
        for dots in same.into_iter().chain(mixed) {
            assert!(read(format, &written(format, &dots)) == dots, "{format:?}");
        }
    }
}

// reading a.17: what the buffer held before follows the last dot
#[test]
fn round_trips_in_a_longer_buffer() {
    let mut random = Random(0xC3);
    for format in FORMATS {
        for stale in [b'0', b'1', b'#', b'x', 0x00, 0xFF] {
            let dots = random.bytes(picture_bytes(format));
            let mut buffer = vec![stale; file_bytes(format) + 700];
            assert_eq!(pbm_write(format, &dots, &mut buffer).number, 0);
            assert!(read(format, &buffer) == dots, "{format:?} {stale:02X}");
        }
    }
}

#[test]
fn writing_what_was_read_gives_the_same_file() {
    let mut random = Random(0xD4);
    for format in FORMATS {
        let first = file(format, &random.bytes(picture_bytes(format)));
        assert!(written(format, &read(format, &first)) == first);
    }
}

#[test]
fn the_dots_read_are_top_line_first() {
    for format in FORMATS {
        let dots = Random(0xE5).bytes(picture_bytes(format));
        let unbroken = [head(format), &digits(format, &dots)].concat();
        assert!(read(format, &unbroken) == dots, "{format:?}");
    }
}

// a file of one format is no file of another, in whichever way the sizes differ
#[test]
fn files_of_another_format() {
    for format in FORMATS {
        for other in FORMATS {
            let expected = if format == other { 0 } else { 11 };
            let mut lent = picture(format, 0x5A);
            let answer = pbm_read(format, &file(other, &picture(other, 0xFF)), &mut lent);
            assert_eq!(answer, PbmAnswer { number: expected, value: 0 });
            let left = if format == other { 0xFF } else { 0x5A };
            assert!(lent == picture(format, left));
        }
    }
}
