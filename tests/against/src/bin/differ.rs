//! differ SEED CALLS: the library and the model given the same random calls.
//! differ addresses: the address outputs at every position of each format.
//! differ call ..: one call by itself, as a difference is told.

use against::case::Case;
use against::differ::compare;
use against::difference::told;
use against::library::Library;
use against::model::Model;
use against::positions;
use std::process::ExitCode;

fn main() -> ExitCode {
    let given: Vec<String> = std::env::args().skip(1).collect();
    let status = match given.split_first() {
        Some((first, words)) if first == "call" => Case::of(words).map(|case| one_call(&case)),
        Some((first, [])) if first == "addresses" => Ok(addresses()),
        _ => arguments(&given).map(|(seed, calls)| report(seed, calls)),
    };
    status.unwrap_or_else(|sentence| {
        eprintln!("{sentence}");
        ExitCode::from(2)
    })
}

fn arguments(given: &[String]) -> Result<(u64, u64), String> {
    let [seed, calls] = given else {
        return Err(
            "Give two whole numbers: differ SEED CALLS; or differ addresses; or one call: differ call .."
                .to_string(),
        );
    };
    let number = |text: &String| text.parse().map_err(|_| format!("'{text}' is not a whole number."));
    Ok((number(seed)?, number(calls)?))
}

fn one_call(case: &Case) -> ExitCode {
    let outcome = case.play(&Library::reach(), &Model);
    let mut words = String::new();
    told(&mut words, case, &outcome).expect("a string takes all words");
    print!("{words}");
    if case.is_settled(&outcome) {
        println!("1 call compared, 0 differences");
        ExitCode::SUCCESS
    } else {
        println!("1 call compared, 1 difference");
        ExitCode::FAILURE
    }
}

fn addresses() -> ExitCode {
    match positions::compare(&Library::reach(), &Model) {
        Ok(compared) => {
            println!("{compared} positions compared, 0 differences");
            ExitCode::SUCCESS
        }
        Err(case) => {
            println!("A difference. The first position that has one, by itself:\n    differ call {case}");
            one_call(&case)
        }
    }
}

fn report(seed: u64, calls: u64) -> ExitCode {
    let tally = match compare(&Library::reach(), &Model, seed, calls) {
        Ok(tally) => tally,
        Err(difference) => {
            print!("{difference}");
            return ExitCode::FAILURE;
        }
    };
    print!("{tally}");
    let gaps = tally.gaps();
    for gap in &gaps {
        println!("{gap}");
    }
    println!("{} calls compared, 0 differences", tally.calls);
    if gaps.is_empty() {
        ExitCode::SUCCESS
    } else {
        ExitCode::FAILURE
    }
}
