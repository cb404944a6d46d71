//! bench: a table of times. bench list: each workload, its unit and its units in a pass.
//! bench NAME REPEATS [CONTENDER]: one workload, over and over, for a profiler.

use against::bench::plain::Plain;
use against::bench::rounds::{table, Row, ROUNDS};
#[cfg(linked)]
use against::bench::runner::Ours;
use against::bench::runner::{Formulas, Runner};
use against::bench::tuned::Tuned;
use against::bench::workload::{Workload, ALL};
use std::process::ExitCode;

fn main() -> ExitCode {
    let given: Vec<String> = std::env::args().skip(1).collect();
    let words: Vec<&str> = given.iter().map(String::as_str).collect();
    let done = match words[..] {
        [] => {
            print(&table());
            Ok(())
        }
        ["list"] => {
            ALL.iter().for_each(|(name, workload, unit)| println!("{name} {unit} {}", workload.units()));
            Ok(())
        }
        [name, repeats] => repeat(name, repeats, "ours"),
        [name, repeats, contender] => repeat(name, repeats, contender),
        _ => Err("Give nothing, list, NAME REPEATS, or NAME REPEATS and ours, plain, tuned or formulas."
            .to_string()),
    };
    match done {
        Ok(()) => ExitCode::SUCCESS,
        Err(sentence) => {
            eprintln!("{sentence}");
            ExitCode::from(2)
        }
    }
}

fn print(rows: &[Row]) {
    println!(
        "Nanoseconds per unit, median of {ROUNDS} interleaved rounds; a ratio above 1 means ours is faster."
    );
    println!(
        "{:<20} {:<8} {:>10} {:>10} {:>10} {:>10} {:>11} {:>11}",
        "workload", "unit", "ours", "plain", "tuned", "formulas", "plain/ours", "tuned/ours"
    );
    for row in rows {
        let ours = row.ours.map_or(["-".to_string(), "-".to_string(), "-".to_string()], |ours| {
            [ours, row.plain / ours, row.tuned / ours].map(|figure| format!("{figure:.2}"))
        });
        println!(
            "{:<20} {:<8} {:>10} {:>10.2} {:>10.2} {:>10.2} {:>11} {:>11}",
            row.name, row.unit, ours[0], row.plain, row.tuned, row.formulas, ours[1], ours[2]
        );
    }
    println!("tuned's clear is a plain fill.");
    if rows.iter().any(|row| row.ours.is_none()) {
        println!("The library is x86-64 code and an emulator's times say nothing: take its own on x86-64.");
    }
}

fn repeat(name: &str, repeats: &str, contender: &str) -> Result<(), String> {
    let Some((_, workload, _)) = ALL.iter().find(|row| row.0 == name) else {
        let names: Vec<&str> = ALL.iter().map(|row| row.0).collect();
        return Err(format!("There is no workload {name}; there are {}.", names.join(", ")));
    };
    let repeats = repeats.parse().map_err(|_| format!("'{repeats}' is not a whole number."))?;
    match contender {
        #[cfg(linked)]
        "ours" => passes::<Ours>(*workload, repeats),
        #[cfg(not(linked))]
        "ours" => return Err("The library is x86-64 code: its own runs are taken on x86-64.".to_string()),
        "plain" => passes::<Plain>(*workload, repeats),
        "tuned" => passes::<Tuned>(*workload, repeats),
        "formulas" => passes::<Formulas>(*workload, repeats),
        _ => return Err(format!("'{contender}' is not ours, plain, tuned or formulas.")),
    }
    Ok(())
}

fn passes<R: Runner>(workload: Workload, repeats: u64) {
    let mut scene = workload.scene::<R>();
    for _ in 0..repeats {
        workload.pass(&mut scene);
    }
}
