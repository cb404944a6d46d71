//! A difference, told as one command that shows it by itself.

use crate::call::{Reply, FREE_NUMBER};
use crate::card::Card;
use crate::case::{Case, Promise};
use crate::flat::Flat;
use crate::lent::Fault;
use crate::scene::Outcome;
use crate::shrink::shrunk;
use std::fmt::{Display, Formatter, Result};

#[derive(Clone, PartialEq, Eq, Debug)]
pub struct Difference {
    pub seed: u64,
    /// The calls made, the differing one included. A shorter run from the same seed does not reach it.
    pub calls: u64,
    /// The smallest case found, and what both cards do with it.
    pub case: Case,
    pub outcome: Outcome,
    /// It shows by itself; else only the run shows it.
    pub is_alone: bool,
}

impl Difference {
    /// Shrinks a case that a run met, where it shows by itself too.
    pub fn met(
        seed: u64,
        calls: u64,
        case: Case,
        outcome: Outcome,
        library: &impl Card,
        model: &impl Card,
    ) -> Difference {
        match smallest(case.clone(), library, model) {
            Some((case, outcome)) => Difference { seed, calls, case, outcome, is_alone: true },
            None => Difference { seed, calls, case, outcome, is_alone: false },
        }
    }
}

/// The smallest case found that shows what this one shows, and what both cards do with it; None where this one does not
/// show it by itself.
pub fn smallest(case: Case, library: &impl Card, model: &impl Card) -> Option<(Case, Outcome)> {
    // A case on which both agree, and are wrong, must go on to be one, and a case that differs to differ.
    let agreed = case.play(library, model).agrees();
    let shows = |case: &Case| {
        let outcome = case.play(library, model);
        !case.is_settled(&outcome) && outcome.agrees() == agreed
    };
    if !shows(&case) {
        return None;
    }
    let case = shrunk(case, shows);
    let outcome = case.play(library, model);
    Some((case, outcome))
}

impl Display for Difference {
    fn fmt(&self, out: &mut Formatter) -> Result {
        let Difference { seed, calls, case, outcome, is_alone } = self;
        if *is_alone {
            writeln!(out, "A difference. The smallest found, by itself:\n    differ call {case}")?;
        } else {
            writeln!(out, "A difference that does not show by itself.")?;
        }
        told(out, case, outcome)?;
        writeln!(out, "It was met by\n    differ {seed} {calls}")
    }
}

/// What both cards did with a case.
pub fn told(out: &mut impl std::fmt::Write, case: &Case, outcome: &Outcome) -> Result {
    writeln!(out, "call:    {}", case.call)?;
    if case.call.knows_state() {
        writeln!(out, "state:   {}", fields(&case.state))?;
    }
    writeln!(out, "library: {}", words(&outcome.library))?;
    writeln!(out, "model:   {}", words(&outcome.model))?;
    memory(out, "picture", case.lent.picture.len(), outcome.picture)?;
    memory(out, "table", case.lent.table.len(), outcome.table)?;
    memory(out, "file", case.lent.file.len(), outcome.file)?;
    let number = outcome.model.number();
    if outcome.agrees() && number == FREE_NUMBER {
        writeln!(out, "Both agree, but no call gives {FREE_NUMBER}.")?;
    }
    match case.promise {
        Some(promise) if promise.is_kept(number) => Ok(()),
        Some(Promise::Good) => writeln!(out, "Both agree, but the state was drawn good."),
        Some(Promise::Bad) => writeln!(out, "Both agree, but a cause of refusal 1 was planted in the state."),
        None => Ok(()),
    }
}

fn words(reply: &Reply) -> String {
    match reply {
        Reply::Answer(answer) => {
            format!("number {}, value {}, state {}", answer.number, answer.value, fields(&answer.state))
        }
        Reply::Address(lines) => format!(
            "number {}, CK low {}, CK high {}, MSL {}",
            lines.number, lines.low, lines.high, lines.msl
        ),
        Reply::Pbm(answer) => format!("number {}, value {}", answer.number, answer.value),
    }
}

fn fields(s: &Flat) -> String {
    format!(
        "X {} Y {} CTRL1 {:02X} CTRL2 {:02X} CSIZE {:02X} DELTAX {} DELTAY {} XLP {:02X} YLP {:02X} \
         code {:02X} done {} modes {:08b} signals {:08b}",
        s.x,
        s.y,
        s.ctrl1,
        s.ctrl2,
        s.csize,
        s.deltax,
        s.deltay,
        s.xlp,
        s.ylp,
        s.code,
        s.done,
        s.modes,
        s.signals
    )
}

fn memory(out: &mut impl std::fmt::Write, name: &str, lent: usize, fault: Option<Fault>) -> Result {
    let Some(Fault { place, library, model }) = fault else {
        return Ok(());
    };
    let outside = if place < 0 || place >= lent as isize { ", outside the lent part" } else { "" };
    writeln!(
        out,
        "{name}: first at byte {place}{outside}: the library leaves {library:02X}, the model {model:02X}"
    )
}
