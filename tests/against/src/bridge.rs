//! The library behind an emulator: the program `bridge` makes its calls on a file that both map. A byte on a
//! pipe hands the turn over, so the two never touch the file at once.

use crate::card::Card;
use crate::flat::{Flat, FlatAddress, FlatAnswer, FlatPbm, ALL_ONES};
use crate::lent::{Part, GUARD};
use crate::scene::{LONGEST_FILE, LONGEST_PICTURE, LONGEST_TABLE};
use crate::shared::Shared;
use std::cell::RefCell;
use std::io::{Read, Write};
use std::process::{Child, Command, Stdio};

// The same order as in bridge/bridge.c.
const FRESH: u8 = 0;
const WRITE: u8 = 1;
const READ: u8 = 2;
const GRANT: u8 = 3;
const SET_VB: u8 = 4;
const LPCK: u8 = 5;
const ADDRESS: u8 = 6;
const WRITE_PBM: u8 = 7;
const READ_PBM: u8 = 8;

/// The start of the file, laid out as in bridge/bridge.c.
#[repr(C)]
#[derive(Clone, Copy)]
struct Turn {
    kind: u8,
    first: u8,
    second: u8,
    unused: u8,
    n: u16,
    m: u16,
    picture: Loan,
    table: Loan,
    pbm: Loan,
    state: Flat,
    answer: FlatAnswer,
    lines: FlatAddress,
    pbm_answer: FlatPbm,
}

/// A lent part's place in the file, and its length.
#[repr(C)]
#[derive(Clone, Copy)]
struct Loan {
    at: u64,
    length: u64,
}

const NOTHING: Loan = Loan { at: 0, length: 0 };

const _: () = assert!(size_of::<Turn>() == 104);

// Where the lent memories lie in the file, guards and all.
const PICTURE: usize = 4_096;
const TABLE: usize = PICTURE + room(LONGEST_PICTURE);
const PBM: usize = TABLE + room(LONGEST_TABLE);
const LENGTH: usize = PBM + room(LONGEST_FILE);

/// In whole pages.
const fn room(longest: usize) -> usize {
    (GUARD + longest + GUARD).next_multiple_of(4_096)
}

pub struct Library(RefCell<Bridge>);

struct Bridge {
    file: Shared,
    program: Child,
}

impl Library {
    /// Starts the emulator.
    pub fn reach() -> Library {
        let file = Shared::new(LENGTH);
        let program = Command::new(env!("GDP_EMULATOR"))
            .arg(env!("GDP_BRIDGE"))
            .arg(file.name())
            .arg(LENGTH.to_string())
            .stdin(Stdio::piped())
            .stdout(Stdio::piped())
            .spawn()
            .unwrap_or_else(|why| panic!("the emulator {} did not start: {why}", env!("GDP_EMULATOR")));
        let mut bridge = Bridge { file, program };
        bridge.wait();
        Library(RefCell::new(bridge))
    }
}

impl Bridge {
    fn wait(&mut self) {
        let from = self.program.stdout.as_mut().expect("its output is a pipe");
        from.read_exact(&mut [0]).expect("the bridge to the library ended; is the archive whole?");
    }

    fn take(&mut self, turn: Turn) -> Turn {
        self.file.put(0, turn);
        let to = self.program.stdin.as_mut().expect("its input is a pipe");
        to.write_all(&[1]).expect("the bridge to the library ended");
        self.wait();
        self.file.get(0)
    }

    /// The same with memories to lend, each copied to its place in the file and back, guards and all.
    fn take_with<const N: usize>(&mut self, turn: Turn, lent: [(usize, Part); N]) -> Turn {
        lent.iter().for_each(|(place, part)| self.file.write(*place, part.whole));
        let after = self.take(turn);
        lent.into_iter().for_each(|(place, part)| self.file.read(place, part.whole));
        after
    }
}

impl Drop for Bridge {
    fn drop(&mut self) {
        // The end of its input ends the program.
        self.program.stdin.take();
        let _ = self.program.wait();
    }
}

fn turn(kind: u8, state: Flat) -> Turn {
    Turn {
        kind,
        first: 0,
        second: 0,
        unused: 0,
        n: 0,
        m: 0,
        picture: NOTHING,
        table: NOTHING,
        pbm: NOTHING,
        state,
        // Bytes that no call answers, so that an answer left out shows.
        answer: FlatAnswer { number: 0xEE, value: 0xEEEE, state: ALL_ONES },
        lines: FlatAddress { number: 0xEE, low: 0xEE, high: 0xEE, msl: 0xEE },
        pbm_answer: FlatPbm { number: 0xEE, value: 0xEEEE_EEEE },
    }
}

fn loan(place: usize, part: &Part) -> Loan {
    Loan { at: (place + part.start) as u64, length: part.length as u64 }
}

impl Card for Library {
    fn fresh(&self, format: u8) -> FlatAnswer {
        let turn = Turn { first: format, ..turn(FRESH, ALL_ONES) };
        self.0.borrow_mut().take(turn).answer
    }

    fn write(&self, state: Flat, address: u8, value: u8) -> FlatAnswer {
        let turn = Turn { first: address, second: value, ..turn(WRITE, state) };
        self.0.borrow_mut().take(turn).answer
    }

    fn read(&self, state: Flat, address: u8) -> FlatAnswer {
        self.0.borrow_mut().take(Turn { first: address, ..turn(READ, state) }).answer
    }

    fn grant(&self, state: Flat, n: u16, picture: Part, table: Part) -> FlatAnswer {
        let lent = (loan(PICTURE, &picture), loan(TABLE, &table));
        let turn = Turn { n, picture: lent.0, table: lent.1, ..turn(GRANT, state) };
        self.0.borrow_mut().take_with(turn, [(PICTURE, picture), (TABLE, table)]).answer
    }

    fn set_vb(&self, state: Flat, level: u8, picture: Part) -> FlatAnswer {
        let turn = Turn { first: level, picture: loan(PICTURE, &picture), ..turn(SET_VB, state) };
        self.0.borrow_mut().take_with(turn, [(PICTURE, picture)]).answer
    }

    fn lpck(&self, state: Flat, h: u16, v: u16) -> FlatAnswer {
        self.0.borrow_mut().take(Turn { n: h, m: v, ..turn(LPCK, state) }).answer
    }

    fn address(&self, state: Flat) -> FlatAddress {
        self.0.borrow_mut().take(turn(ADDRESS, state)).lines
    }
    fn write_pbm(&self, format: u8, picture: Part, buffer: Part) -> FlatPbm {
        self.pbm(WRITE_PBM, format, picture, buffer)
    }

    fn read_pbm(&self, format: u8, file: Part, picture: Part) -> FlatPbm {
        self.pbm(READ_PBM, format, picture, file)
    }
}

impl Library {
    fn pbm(&self, kind: u8, format: u8, picture: Part, pbm: Part) -> FlatPbm {
        let lent = (loan(PICTURE, &picture), loan(PBM, &pbm));
        let turn = Turn { first: format, picture: lent.0, pbm: lent.1, ..turn(kind, ALL_ONES) };
        self.0.borrow_mut().take_with(turn, [(PICTURE, picture), (PBM, pbm)]).pbm_answer
    }
}
