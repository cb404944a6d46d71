//! What a plain PBM may look like when read, sentence by sentence: refusals 10, 11 and 12.

mod common;

use common::pbm::{digits, read, read_number};
use common::picture_bytes;
use common::random::Random;
use second::Format;

/// Every head here is for the EF9366, 512 × 256.
const CARD: Format = Format::Ef9366;

fn dots() -> Vec<u8> {
    Random(0xF6).bytes(picture_bytes(CARD))
}

/// With this head the 131,072 dots behind it are read.
fn good(heads: &[&[u8]]) {
    let dots = dots();
    for head in heads {
        let file = [head, &digits(CARD, &dots)[..]].concat();
        assert!(read(CARD, &file) == dots, "{:?}", String::from_utf8_lossy(head));
    }
}

/// With this head the number is the same, whether all dots follow, on one line or a new one, or none.
fn refused(number: u8, heads: &[&[u8]]) {
    let digits = digits(CARD, &dots());
    for head in heads {
        for file in [[head, &digits[..]].concat(), [head, &b"\n"[..], &digits].concat(), head.to_vec()] {
            assert_eq!(read_number(CARD, &file), number, "{:?}", String::from_utf8_lossy(head));
        }
    }
}

/// These bytes alone are the file.
fn whole(number: u8, files: &[&[u8]]) {
    for file in files {
        assert_eq!(read_number(CARD, file), number, "{:?}", String::from_utf8_lossy(file));
    }
}

// P1

// reading a.3
#[test]
fn p1_stands_first() {
    good(&[b"P1 512 256 "]);
    refused(10, &[b" P1 512 256 ", b"\nP1\n512 256\n", b"\tP1 512 256 ", b"\rP1 512 256 "]);
    refused(10, &[b"#c\nP1 512 256\n", b"#\nP1 512 256 ", b"xP1 512 256 ", b"\xEF\xBB\xBFP1 512 256\n"]);
}

#[test]
fn no_p1() {
    refused(10, &[b"P4\n512 256\n", b"P2\n512 256\n", b"p1\n512 256\n", b"P\n512 256\n", b"1P\n512 256\n"]);
    refused(10, &[b"1\n512 256\n", b"512 256\n", b"P 1\n512 256\n", b"P#c\n1\n512 256\n", b"P01 512 256\n"]);
    whole(10, &[b"", b"P", b"1", b"0", b" ", b"\n", b"#", b"#P1 512 256\n", b"P\n1", b"\0"]);
}

// reading a.4
#[test]
fn a_comment_right_after_p1() {
    good(&[b"P1#c\n512 256\n", b"P1#\n512 256\n", b"P1#a\n#b\n512 256\n", b"P1##\n 512 256\n"]);
    whole(10, &[b"P1#", b"P1#\n", b"P1#512 256\n", b"P1#c\n512"]);
}

// reading a.5
#[test]
fn white_space_after_p1() {
    good(&[b"P1 512 256\n", b"P1\t512 256\n", b"P1\r512 256\n", b"P1\n512 256\n", b"P1\r\n512 256\r\n"]);
    refused(10, &[b"P1512 256\n", b"P10512 256\n", b"P1x512 256\n", b"P1x 512 256\n", b"P1P1 512 256\n"]);
    refused(10, &[b"P1-512 256\n", b"P1,512 256\n"]);
    whole(10, &[b"P1", b"P1 ", b"P1\n", b"P1\t\r\n ", b"P11", b"P1 #", b"P1\n#c\n"]);
}

// the two numbers

// reading a.6
#[test]
fn signs() {
    refused(10, &[b"P1 +512 256\n", b"P1 -512 256\n", b"P1 512 +256\n", b"P1 512 -256\n", b"P1 + 512 256\n"]);
    refused(10, &[b"P1 512+256\n", b"P1 512-256\n", b"P1 512+ 256\n"]);
}

#[test]
fn no_whole_numbers() {
    refused(10, &[b"P1 x 256\n", b"P1 x512 256\n", b"P1 512 x\n", b"P1 512 x256\n", b"P1 0x200 256\n"]);
    refused(
        10,
        &[b"P1 512. 256\n", b"P1 512.0 256\n", b"P1 .512 256\n", b"P1 5e2 256\n", b"P1 \"512\" 256\n"],
    );
    refused(10, &[b"P1 \xB2 256\n", b"P1 512 \xD9\xA2\n"]);
    whole(10, &[b"P1 512", b"P1 512 ", b"P1 512\n", b"P1 512 #256\n", b"P1 #512\n256\n", b"P1 512 #"]);
}

// reading a.7
#[test]
fn leading_zeros() {
    good(&[b"P1 0512 256\n", b"P1 512 0256\n", b"P1 000512 00000000256\n"]);
    let zeros = vec![b'0'; 70_000];
    good(&[&[b"P1 ", &zeros[..], b"512 ", &zeros, b"256\n"].concat()]);
    refused(11, &[b"P1 5120 256\n", b"P1 512 02560\n", b"P1 05012 256\n"]);
}

#[test]
fn zero_is_a_whole_number() {
    refused(11, &[b"P1 0 0\n", b"P1 0 256\n", b"P1 512 0\n", b"P1 000 256\n", b"P1 512 000\n"]);
}

// reading a.8: 512 and 256 over 2 to the 16th, 32nd, 64th and 128th
#[test]
fn long_numbers_never_wrap() {
    refused(11, &[b"P1 66048 256\n", b"P1 512 65792\n"]);
    refused(11, &[b"P1 4294967808 256\n", b"P1 512 4294967552\n"]);
    refused(11, &[b"P1 18446744073709552128 256\n", b"P1 512 18446744073709551872\n"]);
    refused(11, &[b"P1 340282366920938463463374607431768211968 256\n"]);
    refused(11, &[b"P1 512 340282366920938463463374607431768211712\n"]);
    refused(
        11,
        &[b"P1 65535 65535\n", b"P1 65536 256\n", b"P1 512 4294967296\n", b"P1 99999999999999999999 256\n"],
    );
    let zeros = vec![b'0'; 70_000];
    refused(
        11,
        &[&[b"P1 1", &zeros[..], b"512 256\n"].concat(), &[b"P1 512 1", &zeros[..], b"256\n"].concat()],
    );
}

#[test]
fn other_sizes() {
    refused(11, &[b"P1 511 256\n", b"P1 513 256\n", b"P1 512 255\n", b"P1 512 257\n", b"P1 256 512\n"]);
    refused(11, &[b"P1 512 512\n", b"P1 256 256\n", b"P1 1024 128\n", b"P1 5 1 2 256\n", b"P1 51 2 256\n"]);
    refused(11, &[b"P1 12 256\n", b"P1 2 6\n", b"P1 512 56\n", b"P1 612 256\n", b"P1 522 256\n"]);
}

// reading a.9
#[test]
fn a_comment_inside_digits_parts_them() {
    refused(11, &[b"P1 51#\n2 256\n", b"P1 5#c\n12 256\n", b"P1 512 25#\n6\n", b"P1 512 2#c\n56\n"]);
    // the height is there already, and the digit left over is a bad character
    refused(12, &[b"P1 512 256#\n6\n"]);
}

// reading a.10
#[test]
fn what_may_follow_the_height() {
    good(&[
        b"P1 512 256 ",
        b"P1 512 256\t",
        b"P1 512 256\r",
        b"P1 512 256\n",
        b"P1 512 256#c\n",
        b"P1 512 256#\n",
    ]);
    refused(
        12,
        &[b"P1 512 256x", b"P1 512 256x\n", b"P1 512 256,", b"P1 512 256.", b"P1 512 256-", b"P1 512 256\0"],
    );
    whole(12, &[b"P1 512 256", b"P1 512 256 ", b"P1 512 256\n\n", b"P1 512 256#", b"P1 512 256 #\n"]);
    refused(11, &[b"P1 512 2560101 ", b"P1 512 2560 ", b"P1 512 2561\n"]);
    // the dots stuck to the height make it a long number
    let stuck = [&b"P1 512 256"[..], &digits(CARD, &dots())].concat();
    whole(11, &[&stuck, &[&stuck[..], b"\n"].concat()]);
}

// reading a.11
#[test]
fn what_may_part_the_numbers() {
    good(&[b"P1 512\t256\n", b"P1 512\r256\n", b"P1 512\n256\n", b"P1 512\r\n256\n", b"P1 512  \t\n 256\n"]);
    good(&[b"P1 512#c\n256\n", b"P1 512 #c\n256\n", b"P1 512#\n256\n", b"P1 512#a\n#b\n\n# c\n256\n"]);
    refused(10, &[b"P1 512x256\n", b"P1 512,256\n", b"P1 512, 256\n", b"P1 512 ,256\n", b"P1 512x 256\n"]);
    refused(10, &[b"P1 512 x 256\n", b"P1 512\x00256\n", b"P1 512/256\n"]);
}

// reading a.12
#[test]
fn the_lowest_number_goes_first() {
    // a wrong width, and no height
    whole(10, &[b"P1 7", b"P1 7 ", b"P1 7 x", b"P1 7x256\n0101", b"P1 0 #256\n"]);
    // a wrong size, and bad dots or none
    whole(11, &[b"P1 7 256", b"P1 512 7", b"P1 7 7 x", b"P1 512 7x", b"P1 512 25x6\n", b"P1 7 7\n#"]);
    refused(11, &[b"P1 7 256 x", b"P1 512 7 2"]);
    // no P1, and a wrong size
    refused(10, &[b"P4 7 7 x"]);
}

// white space and comments

// reading a.13
#[test]
fn a_comment_ends_with_its_line() {
    good(&[
        b"P1 # a\r\n512 256\r\n",
        b"P1 # a\rb\n512 256\n",
        b"P1 #7 7\r\r\n512 256 #\r\n",
        b"P1 512 256#\r0\n",
    ]);
    // a lone CR does not end it
    whole(10, &[b"P1 # a\r512 256\r", b"P1#\r512 256 0101\r", b"P1 512 #\r256 0101\r"]);
    let digits = digits(CARD, &dots());
    assert_eq!(read_number(CARD, &[b"P1 512 256 #\r", &digits[..]].concat()), 12);
    assert_eq!(read_number(CARD, &[b"P1 512 256 #\r", &digits[..], b"\n"].concat()), 12);
    assert_eq!(read_number(CARD, &[b"P1 512 256 #\r\n", &digits[..]].concat()), 0);
    // the end of the file ends it too
    whole(10, &[b"P1 #", b"P1 # 512 256", b"P1 512#256"]);
    whole(12, &[b"P1 512 256#0101"]);
}

#[test]
fn any_byte_in_a_comment() {
    let all: Vec<u8> = (0..=255).filter(|&byte| byte != b'\n').collect();
    good(&[&[b"P1#", &all[..], b"\n512#", &all, b"\n256#", &all, b"\n"].concat()]);
    good(&[b"P1 # P1 7 7 0101\n512 256 # x2+-\0\xFF\n", b"P1 ## # #\n512 256 ##\n#\n"]);
    // nothing in a comment counts, not even the right size
    refused(11, &[b"P1 # 512 256\n7 7\n"]);
}

// reading a.14
#[test]
fn comments_between_dots() {
    let dots = dots();
    let digits = digits(CARD, &dots);
    let parted = |comment: &[u8], every: usize| {
        let chunks: Vec<Vec<u8>> = digits.chunks(every).map(|chunk| [chunk, comment].concat()).collect();
        [&b"P1 512 256 "[..], &chunks.concat()].concat()
    };
    for every in [1, 7, 64, 512, 131_071] {
        for comment in [&b"#\n"[..], b"#01x\n", b" # 2 \r\n", b"#a\n#b\n"] {
            assert!(read(CARD, &parted(comment, every)) == dots, "{every}");
        }
    }
    // the dots of a comment are missing
    assert_eq!(read_number(CARD, &parted(b"#", 131_071)), 12);
}

// reading a.15
#[test]
fn no_other_white_space() {
    for byte in (0..=255_u8).filter(|byte| !b" \t\r\n#0123456789".contains(byte)) {
        refused(10, &[&[b"P1", &[byte][..], b"512 256\n"].concat()]);
        refused(10, &[&[b"P1 ", &[byte][..], b" 512 256\n"].concat()]);
        refused(10, &[&[b"P1 512", &[byte][..], b"256\n"].concat()]);
        refused(10, &[&[b"P1 512 ", &[byte][..], b" 256\n"].concat()]);
        refused(12, &[&[b"P1 512 256", &[byte][..]].concat()]);
        refused(12, &[&[b"P1 512 256\n", &[byte][..]].concat()]);
    }
}

#[test]
fn any_white_space_anywhere() {
    good(&[b"P1 \t\r\n\n 512 \t\r\n\n 256 \t\r\n\n ", b"P1\n\n\n\n512\r256\t", b"P1\r512\r256\r"]);
}

// reading a.16
#[test]
fn dots_parted_or_not() {
    let dots = dots();
    let digits = digits(CARD, &dots);
    for every in [1, 2, 3, 63, 64, 65, 70, 512, 131_072] {
        for white in [&b" "[..], b"\t", b"\r", b"\n", b"\r\n", b" \t\r\n\n"] {
            let chunks: Vec<Vec<u8>> = digits.chunks(every).map(|chunk| [white, chunk].concat()).collect();
            assert!(
                read(CARD, &[&b"P1 512 256"[..], &chunks.concat()].concat()) == dots,
                "{every} {white:?}"
            );
        }
    }
}

// the dots' end

// reading a.17
#[test]
fn nothing_after_the_last_dot_is_looked_at() {
    let dots = dots();
    let whole = [&b"P1\n512 256\n"[..], &digits(CARD, &dots)].concat();
    for byte in 0..=255 {
        assert!(read(CARD, &[&whole[..], &[byte]].concat()) == dots, "{byte:02X}");
        assert!(read(CARD, &[&whole[..], &[b'\n', byte, b'#']].concat()) == dots, "{byte:02X}");
    }
    for after in
        [&b""[..], b"\n", b"0", b"1", b"0101", b"#", b"# no end", b"x", b"\nP1\n7 7\n", b"\xFF\0\xFF"]
    {
        assert!(read(CARD, &[&whole[..], after].concat()) == dots, "{after:?}");
    }
}

#[test]
fn a_last_dot_after_a_comment_is_read() {
    let digits = digits(CARD, &dots());
    let (before, last) = digits.split_at(131_071);
    assert!(read(CARD, &[b"P1 512 256 ", before, b"# 0x\n \t", last, b"x"].concat()) == dots());
    assert_eq!(read_number(CARD, &[b"P1 512 256 ", before, b"# 0x", last, b"1"].concat()), 12);
}
