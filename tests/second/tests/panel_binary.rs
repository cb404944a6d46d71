//! The panel binary: standard input to standard output, and its exit status.

use std::io::Write;
use std::process::{Command, Stdio};

fn binary() -> Command {
    let mut command = Command::new(env!("CARGO_BIN_EXE_panel"));
    command.stdin(Stdio::piped()).stdout(Stdio::piped()).stderr(Stdio::piped());
    command
}

#[test]
fn plays_standard_input() {
    let mut child = binary().spawn().unwrap();
    child.stdin.take().unwrap().write_all(b"R\t0\nR\t4").unwrap();
    let end = child.wait_with_output().unwrap();
    assert_eq!((end.status.code(), end.stderr.len()), (Some(0), 0));
    assert_eq!(end.stdout, b"G\t9366\nR\t0\t05\nE\t2\t4\n");
}

#[test]
fn output_that_cannot_be_written() {
    let mut child = binary().spawn().unwrap();
    drop(child.stdout.take());
    drop(child.stdin.take());
    let end = child.wait_with_output().unwrap();
    assert_eq!(end.status.code(), Some(1));
    assert!(end.stderr.starts_with(b"The output could not be written: "));
}

// A folder can be opened there, and not read.
#[cfg(unix)]
#[test]
fn input_that_cannot_be_read() {
    let folder = std::fs::File::open(env!("CARGO_MANIFEST_DIR")).unwrap();
    let end = binary().stdin(folder).output().unwrap();
    assert_eq!((end.status.code(), end.stdout.len()), (Some(1), 0));
    assert!(end.stderr.starts_with(b"The input could not be read: "));
}
