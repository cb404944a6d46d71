//! A proved program, run as a user runs it: a log on standard input.

use std::ffi::OsString;
use std::fs::File;
use std::io::Write;
use std::process::{Command, Output, Stdio};

pub struct Program(OsString);

/// What a program leaves on standard output and on standard error.
pub struct Said {
    pub output: Vec<u8>,
    pub words: String,
}

impl Program {
    /// The one that this variable of the environment names.
    pub fn named_by(variable: &str) -> Program {
        let name = std::env::var_os(variable);
        Program(name.unwrap_or_else(|| panic!("{variable} names the program that plays a log")))
    }

    pub fn play(&self, log: &[u8]) -> Said {
        let mut child = self.command().spawn().expect("the program starts");
        let mut feed = child.stdin.take().unwrap();
        let log = log.to_vec();
        // a program that does not read past the longest log closes its end early
        let feeder = std::thread::spawn(move || drop(feed.write_all(&log)));
        let end = child.wait_with_output().unwrap();
        feeder.join().unwrap();
        said(end)
    }

    /// A folder can be opened, and not read.
    pub fn play_a_folder(&self) -> Said {
        let folder = File::open(env!("CARGO_MANIFEST_DIR")).unwrap();
        said(self.command().stdin(folder).output().unwrap())
    }

    /// An empty log, and no room for what comes of it.
    pub fn play_onto_a_full_disk(&self) -> Said {
        let full = File::options().write(true).open("/dev/full").unwrap();
        said(self.command().stdin(Stdio::null()).stdout(full).output().unwrap())
    }

    fn command(&self) -> Command {
        let mut command = Command::new(&self.0);
        command.stdin(Stdio::piped()).stdout(Stdio::piped()).stderr(Stdio::piped());
        command
    }
}

/// The status is 0 whatever is said.
fn said(end: Output) -> Said {
    let words = String::from_utf8_lossy(&end.stderr).into_owned();
    assert_eq!(end.status.code(), Some(0), "{words}");
    Said { output: end.stdout, words }
}
