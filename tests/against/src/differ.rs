//! Two cards given the same calls, and stopped at the first difference.

use crate::call::{Call, Reply};
use crate::card::Card;
use crate::case::{is_due, Case, Promise};
use crate::convert::{flattened, state_of};
use crate::difference::Difference;
use crate::draw::single::{self, Known};
use crate::draw::{pbm, run, states};
use crate::flat::{Flat, ALL_ONES};
use crate::random::Random;
use crate::scene::{Outcome, Scene};
use crate::tally::Tally;

/// Calls in a run before it starts again from a fresh or a drawn state.
const RUN_LENGTH: u64 = 400;
/// Single calls before their memories are filled anew.
const RENEWAL: u64 = 200;
/// Calls among a thousand that write or read PBM. One takes as long as some hundred others.
const PBM_CALLS: u64 = 7;

/// The same seed makes the same calls; a smaller number of calls makes the first of them.
pub fn compare(
    library: &impl Card,
    model: &impl Card,
    seed: u64,
    calls: u64,
) -> Result<Tally, Box<Difference>> {
    let mut differ = Differ::new(library, model, seed);
    while differ.tally.calls < calls {
        differ.step()?;
    }
    Ok(differ.tally)
}

/// Whose memories a call was lent.
enum Place {
    Run,
    Single,
}

struct Differ<'a, L: Card, M: Card> {
    library: &'a L,
    model: &'a M,
    seed: u64,
    random: Random,
    tally: Tally,
    run: Scene,
    /// The state of the run under way, as both cards last gave it.
    present: Flat,
    left_in_run: u64,
    single: Scene,
    left_to_renewal: u64,
}

impl<'a, L: Card, M: Card> Differ<'a, L, M> {
    fn new(library: &'a L, model: &'a M, seed: u64) -> Differ<'a, L, M> {
        Differ {
            library,
            model,
            seed,
            random: Random::new(seed),
            tally: Tally::default(),
            run: Scene::default(),
            present: ALL_ONES,
            left_in_run: 0,
            single: Scene::default(),
            left_to_renewal: 0,
        }
    }

    /// One call: of the run, or by itself.
    fn step(&mut self) -> Result<(), Box<Difference>> {
        if self.random.below(1_000) < PBM_CALLS {
            return self.pbm();
        }
        match self.random.below(100) {
            0..=54 if self.left_in_run > 0 => self.run_on(),
            0..=54 => self.begin_run(),
            55 => self.fresh(),
            _ => self.single_call(),
        }
    }

    fn begin_run(&mut self) -> Result<(), Box<Difference>> {
        self.left_in_run = RUN_LENGTH;
        self.tally.begin_run();
        self.run.renew(&mut self.random);
        let format = self.random.below(3) as u8;
        let call = Call::Fresh { format };
        let outcome = self.run.play(self.library, self.model, ALL_ONES, call);
        self.settle(Place::Run, ALL_ONES, call, outcome, Known::Good)?;
        self.go_on_from(outcome);
        if self.random.flag() {
            // Half the runs begin inside some command instead.
            self.present = flattened(&states::good(&mut self.random));
        }
        Ok(())
    }

    fn run_on(&mut self) -> Result<(), Box<Difference>> {
        self.left_in_run -= 1;
        let Some(state) = state_of(&self.present) else {
            unreachable!("both cards led a run to the same value, and it stands for no state")
        };
        let call = run::next(&mut self.random, &state);
        let outcome = self.run.play(self.library, self.model, self.present, call);
        self.settle(Place::Run, self.present, call, outcome, Known::Good)?;
        self.go_on_from(outcome);
        if let Some(after) = state_of(&self.present) {
            self.tally.follow_run(&state, &call, &after);
        }
        Ok(())
    }

    /// Both answers are the same by now, so the run goes on from the library's own.
    fn go_on_from(&mut self, outcome: Outcome) {
        if let Reply::Answer(answer) = outcome.library {
            self.present = answer.state;
        }
    }

    fn fresh(&mut self) -> Result<(), Box<Difference>> {
        let format = if self.random.flag() { self.random.below(4) as u8 } else { self.random.byte() };
        let call = Call::Fresh { format };
        let outcome = self.single.play(self.library, self.model, ALL_ONES, call);
        self.settle(Place::Single, ALL_ONES, call, outcome, Known::Nothing)
    }

    fn single_call(&mut self) -> Result<(), Box<Difference>> {
        self.renew_single();
        let (state, known, call) = single::drawn(&mut self.random);
        let outcome = self.single.play(self.library, self.model, state, call);
        self.settle(Place::Single, state, call, outcome, known)
    }

    fn renew_single(&mut self) {
        if self.left_to_renewal == 0 {
            self.left_to_renewal = RENEWAL;
            self.single.renew(&mut self.random);
        }
        self.left_to_renewal -= 1;
    }

    fn pbm(&mut self) -> Result<(), Box<Difference>> {
        self.renew_single();
        let (call, known) = pbm::call(&mut self.random, &mut self.single);
        let outcome = self.single.play(self.library, self.model, ALL_ONES, call);
        self.settle(Place::Single, ALL_ONES, call, outcome, known)
    }

    /// Counts a call on which all agree: both cards, what was known of the state before, and that no call gives the free
    /// number.
    fn settle(
        &mut self,
        place: Place,
        state: Flat,
        call: Call,
        outcome: Outcome,
        known: Known,
    ) -> Result<(), Box<Difference>> {
        let number = outcome.model.number();
        let lent = match place {
            Place::Run => self.run.before(),
            Place::Single => self.single.before(),
        };
        self.tally.count(&state, &call, number, known, lent);
        let promise = match known {
            Known::Good | Known::LeftOver(_) => Some(Promise::Good),
            Known::Refused(_) => Some(Promise::Bad),
            Known::File(_) | Known::Nothing => None,
        };
        if outcome.agrees() && is_due(number, promise) {
            return Ok(());
        }
        // Where the cards differ or only the number is wrong, that is what is told.
        let promise = promise.filter(|promise| outcome.agrees() && !promise.is_kept(number));
        let case = Case { state, call, lent: lent.clone(), promise };
        Err(Box::new(Difference::met(self.seed, self.tally.calls, case, outcome, self.library, self.model)))
    }
}
