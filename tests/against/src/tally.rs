//! What a run has covered.

use crate::call::{Call, FREE_NUMBER, KINDS};
use crate::coverage::Coverage;
use crate::draw::codes::{class_of, CLASSES};
use crate::draw::left_over;
use crate::draw::single::{causes, Known};
use crate::flat::Flat;
use crate::scene::Memories;
use second::State;
use std::fmt::{Display, Formatter, Result};

/// A run this long must have met everything often enough.
pub const WHOLE_RUN: u64 = 500_000;
/// The refusal numbers, the free one among them, and 0.
const NUMBERS: u8 = 13;
/// Each kind of call, number, class of command, cause of refusal 1, and left-over accepted and refused.
const OFTEN: u64 = 100;
/// Each row of the finer counts.
const SOME: u64 = 20;

pub struct Tally {
    pub calls: u64,
    kinds: [u64; KINDS.len()],
    numbers: [u64; 256],
    commands: [u64; CLASSES.len()],
    causes: Vec<(&'static str, u64)>,
    /// By the place in `left_over::KINDS`: accepted, and refused.
    left_overs: [[u64; 2]; left_over::KINDS.len()],
    finer: Coverage,
}

impl Default for Tally {
    fn default() -> Tally {
        Tally {
            calls: 0,
            kinds: [0; KINDS.len()],
            numbers: [0; 256],
            commands: [0; CLASSES.len()],
            causes: causes().map(|name| (name, 0)).collect(),
            left_overs: [[0; 2]; left_over::KINDS.len()],
            finer: Coverage::default(),
        }
    }
}

impl Tally {
    /// `lent` is as it was before the call.
    pub fn count(&mut self, state: &Flat, call: &Call, number: u8, known: Known, lent: &Memories) {
        self.calls += 1;
        self.finer.count(state, call, number, known, lent);
        self.kinds[call.kind()] += 1;
        self.numbers[usize::from(number)] += 1;
        if let (Call::Write { address: 0, value }, 0) = (call, number) {
            let class = class_of(*value);
            self.commands
                .iter_mut()
                .zip(CLASSES)
                .filter(|(_, row)| row.0 == class)
                .for_each(|(n, _)| *n += 1);
        }
        match known {
            Known::Refused(cause) => self.causes[cause].1 += 1,
            Known::LeftOver(kind) => self.left_overs[kind][usize::from(number != 0)] += 1,
            Known::Good | Known::File(_) | Known::Nothing => {}
        }
    }

    pub fn begin_run(&mut self) {
        self.finer.frames.begin_run();
    }

    /// A call of a run, counted as any other, from the state before it to the one after.
    pub fn follow_run(&mut self, before: &State, call: &Call, after: &State) {
        self.finer.frames.follow_run(before, call, after);
    }

    fn left_over_rows(&self) -> impl Iterator<Item = (String, u64)> + '_ {
        left_over::KINDS.iter().zip(self.left_overs).flat_map(|((name, _, _), [accepted, refused])| {
            [(format!("{name}: accepted"), accepted), (format!("{name}: refused"), refused)]
        })
    }

    /// Sentences for what a whole run met too seldom; a shorter run owes nothing.
    pub fn gaps(&self) -> Vec<String> {
        if self.calls < WHOLE_RUN {
            return Vec::new();
        }
        let below = |least: u64, what: String, count: u64| {
            (count < least).then(|| format!("Only {count} calls, where at least {least} are wanted: {what}."))
        };
        let seldom = |what: String, count: u64| below(OFTEN, what, count);
        let kinds = KINDS.iter().zip(self.kinds).filter_map(|(name, n)| seldom(name.to_string(), n));
        let numbers = (0..NUMBERS).filter(|number| *number != FREE_NUMBER);
        let numbers = numbers
            .filter_map(|number| seldom(format!("number {number}"), self.numbers[usize::from(number)]));
        let commands =
            CLASSES.iter().zip(self.commands).filter_map(|((_, name), n)| seldom(name.to_string(), n));
        let causes = self.causes.iter().filter_map(|(name, n)| seldom(format!("refusal 1 for {name}"), *n));
        let left_overs = self.left_over_rows().filter_map(|(what, n)| seldom(what, n));
        let finer = self.finer.rows().into_iter().filter_map(|(what, n)| below(SOME, what, n));
        kinds.chain(numbers).chain(commands).chain(causes).chain(left_overs).chain(finer).collect()
    }
}

impl Display for Tally {
    fn fmt(&self, out: &mut Formatter) -> Result {
        writeln!(out, "Calls by kind")?;
        rows(out, KINDS.into_iter().zip(self.kinds))?;
        writeln!(out, "Calls by number (0 accepted)")?;
        for (number, count) in self.numbers.iter().enumerate().filter(|(_, count)| **count > 0) {
            writeln!(out, "{count:>10}  {number}")?;
        }
        writeln!(out, "Commands accepted")?;
        rows(out, CLASSES.iter().map(|(_, name)| *name).zip(self.commands))?;
        writeln!(out, "Causes of refusal 1, each planted alone or beside left-overs")?;
        rows(out, self.causes.iter().copied())?;
        writeln!(out, "Left-overs, each planted in a good state")?;
        rows(out, self.left_over_rows())?;
        let mut finer = self.finer.rows();
        finer.sort_by_key(|(_, count)| *count);
        writeln!(out, "Of {} finer rows, those met least", finer.len())?;
        for (name, count) in finer.iter().take(5) {
            writeln!(out, "{count:>10}  {name}")?;
        }
        Ok(())
    }
}

fn rows(out: &mut Formatter, rows: impl Iterator<Item = (impl Display, u64)>) -> Result {
    for (name, count) in rows {
        writeln!(out, "{count:>10}  {name}")?;
    }
    Ok(())
}
