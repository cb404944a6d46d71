//! The proved panel program, run as a user runs it, against the second program's panel text, byte for byte.
//! GDP_PANEL is the program that plays a log; PANEL_SEED tries other logs.

use against::log::{generated, stored};
use against::program::Program;

const GENERATED: usize = 600;

fn program() -> Program {
    Program::named_by("GDP_PANEL")
}

fn agrees(input: &[u8], name: &str) -> Vec<u8> {
    let (ours, theirs) = (program().play(input), second::panel(input));
    assert_eq!(ours.words, "", "{name}");
    let ours = ours.output;
    let apart = ours.split(|b| *b == b'\n').zip(theirs.split(|b| *b == b'\n')).find(|(a, b)| a != b);
    if let Some((ours, theirs)) = apart {
        let (ours, theirs) = (String::from_utf8_lossy(ours), String::from_utf8_lossy(theirs));
        panic!("{name}: the program writes {ours:?}, the second program {theirs:?}");
    }
    assert_eq!(ours.len(), theirs.len(), "{name}");
    ours
}

#[test]
fn generated_logs() {
    let mut lit = 0;
    let mut malformed = 0;
    for (name, input) in generated(GENERATED) {
        let output = agrees(&input, &name);
        lit += usize::from(output.split(|b| *b == b'\n').any(|line| line.starts_with(b"P")));
        malformed += usize::from(output.split(|b| *b == b'\n').any(|line| line.ends_with(b"\t20")));
    }
    // a comparison of empty screens and sound logs alone would show little
    assert!(lit > GENERATED / 3 && malformed > GENERATED / 4, "{lit} lit, {malformed} malformed");
}

#[test]
fn lengths_about_the_longest() {
    for length in [65_535, 65_536, 65_537, 65_538, 200_000] {
        agrees(&b"R\t0\n".repeat(50_000)[..length], &format!("{length} bytes"));
        agrees(&vec![b'\n'; length], &format!("{length} line feeds"));
    }
}

/// Each stored log with its stored output.
#[test]
fn stored_logs() {
    for path in stored() {
        let output = agrees(&std::fs::read(&path).unwrap(), &path.display().to_string());
        let stored = std::fs::read(path.with_extension("out")).unwrap();
        assert!(output == stored, "{} is not what is stored", path.display());
    }
}

#[test]
fn a_log_that_cannot_be_read() {
    let said = program().play_a_folder();
    assert_eq!(said.output, b"");
    assert_eq!(said.words, "panel: the log could not be read: Is a directory\n");
}

#[test]
fn an_answer_that_cannot_be_written() {
    let said = program().play_onto_a_full_disk();
    assert_eq!(said.words, "panel: the answer could not be written: No space left on device\n");
}
