//! The proved picture program, run as a user runs it, against the second program: it must write exactly the plain PBM of
//! the dots that the second program's panel text has lit. GDP_PICTURE is the program; PANEL_SEED tries other logs.

use against::draw::arguments::bytes;
use against::draw::pbm::file;
use against::log::{generated, stored};
use against::program::Program;
use second::Format;

const GENERATED: usize = 100;
const BYTES_IN_LINE: usize = 512 / 8;
/// A vector that lights a single dot, and only by the very last byte of the log.
const ONE_DOT: &[u8] = b"W\t1\t3\nW\t5\t5\nW\t0\t10\nT\t1";

fn program() -> Program {
    Program::named_by("GDP_PICTURE")
}

/// The places of the lit dots; None where the log is too long for a panel.
fn lit(log: &[u8]) -> Option<Vec<(usize, usize)>> {
    let text = String::from_utf8(second::panel(log)).expect("the panel text is ASCII");
    let dots = text.lines().filter_map(|line| line.strip_prefix("P\t")?.split_once('\t'));
    let number = |digits: &str| digits.parse().expect("a place in decimal");
    (text != "E\t0\t21\n").then(|| dots.map(|(x, y)| (number(x), number(y))).collect())
}

fn file_of(dots: &[(usize, usize)]) -> Vec<u8> {
    let mut picture = vec![0; bytes(Format::Ef9366)];
    for (x, y) in dots {
        picture[y * BYTES_IN_LINE + x / 8] |= 1 << (x % 8);
    }
    file(Format::Ef9366, &picture)
}

/// How many dots are lit; None where the log was too long, and said to be.
fn agrees(log: &[u8], name: &str) -> Option<usize> {
    let (said, dots) = (program().play(log), lit(log));
    let (file, words) = match &dots {
        Some(dots) => (file_of(dots), ""),
        None => (Vec::new(), "picture: the log is longer than 65,536 bytes\n"),
    };
    assert_eq!(said.words, words, "{name}");
    assert_eq!(said.output.len(), file.len(), "{name}");
    let apart = said.output.iter().zip(&file).position(|(ours, theirs)| ours != theirs);
    assert_eq!(apart, None, "{name}: the first byte that is not the second program's");
    dots.map(|dots| dots.len())
}

#[test]
fn generated_logs() {
    let lit = generated(GENERATED).filter(|(name, log)| agrees(log, name) > Some(0)).count();
    // a comparison of dark screens alone would show little
    assert!(lit > GENERATED / 3, "{lit} lit");
}

#[test]
fn stored_logs() {
    for path in stored() {
        agrees(&std::fs::read(&path).unwrap(), &path.display().to_string());
    }
}

#[test]
fn lengths_about_the_longest() {
    for (length, dots) in
        [(65_535, Some(1)), (65_536, Some(1)), (65_537, None), (65_538, None), (200_000, None)]
    {
        let log = [&vec![b'\n'; length - ONE_DOT.len()], ONE_DOT].concat();
        assert_eq!(agrees(&log, &format!("{length} bytes")), dots);
    }
    assert_eq!(agrees(&ONE_DOT[..ONE_DOT.len() - 1], "no last byte"), Some(0));
}

#[test]
fn a_log_that_cannot_be_read() {
    let said = program().play_a_folder();
    assert_eq!(said.output, b"");
    assert_eq!(said.words, "picture: the log could not be read: Is a directory\n");
}

#[test]
fn a_file_that_cannot_be_written() {
    let said = program().play_onto_a_full_disk();
    assert_eq!(said.words, "picture: the file could not be written: No space left on device\n");
}
