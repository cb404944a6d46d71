//! Plays the panel text from standard input and writes what comes of it.

use std::io::{self, Read, Write};
use std::process::ExitCode;

fn main() -> ExitCode {
    let mut input = Vec::new();
    if let Err(error) = io::stdin().read_to_end(&mut input) {
        return failed(&format!("The input could not be read: {error}."));
    }
    let mut standard_output = io::stdout();
    let written = standard_output.write_all(&second::panel(&input)).and_then(|()| standard_output.flush());
    if let Err(error) = written {
        return failed(&format!("The output could not be written: {error}."));
    }
    ExitCode::SUCCESS
}

/// Nothing is left to do if the sentence itself cannot be written.
fn failed(sentence: &str) -> ExitCode {
    let _ = writeln!(io::stderr(), "{sentence}");
    ExitCode::FAILURE
}
