//! Interleaved rounds of timing, and their medians.

use super::plain::Plain;
use super::runner::{Formulas, Runner};
use super::tuned::Tuned;
use super::workload::{Scene, Workload, ALL};
use std::time::{Duration, Instant};

/// Many short rounds rather than few long ones: most then fall between two interruptions.
pub const ROUNDS: usize = 151;
/// How long one contender runs in one round, about.
const SPELL: Duration = Duration::from_micros(500);

/// Nanoseconds per unit.
#[derive(Clone, Copy)]
pub struct Row {
    pub name: &'static str,
    pub unit: &'static str,
    /// None where the library's code does not run.
    pub ours: Option<f64>,
    pub plain: f64,
    pub tuned: f64,
    pub formulas: f64,
}

/// A workload made ready for one contender.
trait Contender {
    fn spell(&mut self, passes: u64) -> Duration;
    /// Picture and file as they are now.
    fn left(&self) -> [&[u8]; 2];
}

struct Ready<R> {
    workload: Workload,
    scene: Scene<R>,
}

impl<R: Runner> Contender for Ready<R> {
    fn spell(&mut self, passes: u64) -> Duration {
        let began = Instant::now();
        for _ in 0..passes {
            self.workload.pass(&mut self.scene);
        }
        began.elapsed()
    }

    fn left(&self) -> [&[u8]; 2] {
        [&self.scene.picture, &self.scene.file]
    }
}

/// All workloads in every round, so that a slow spell of the machine falls on all alike.
pub fn table() -> Vec<Row> {
    let mut sets: Vec<_> = ALL.iter().map(|(_, workload, _)| contenders(*workload)).collect();
    ALL.iter().zip(&mut sets).for_each(|((name, ..), set)| check(name, set));
    let passes: Vec<Vec<u64>> = sets.iter_mut().map(|set| set.iter_mut().map(calibrated).collect()).collect();
    let mut times: Vec<Vec<Vec<f64>>> = sets.iter().map(|set| vec![Vec::new(); set.len()]).collect();
    for _ in 0..ROUNDS {
        for (w, set) in sets.iter_mut().enumerate() {
            for (c, contender) in set.iter_mut().enumerate() {
                let units = (passes[w][c] * ALL[w].1.units()) as f64;
                times[w][c].push(contender.spell(passes[w][c]).as_nanos() as f64 / units);
            }
        }
    }
    ALL.iter().zip(times).map(|((name, _, unit), times)| row(name, unit, times)).collect()
}

/// The peers, and the library last where it runs.
fn contenders(workload: Workload) -> Vec<Box<dyn Contender>> {
    let peers = vec![ready::<Plain>(workload), ready::<Tuned>(workload), ready::<Formulas>(workload)];
    with_ours(peers, workload)
}

fn ready<R: Runner + 'static>(workload: Workload) -> Box<dyn Contender> {
    Box::new(Ready::<R> { workload, scene: workload.scene() })
}

#[cfg(linked)]
fn with_ours(mut peers: Vec<Box<dyn Contender>>, workload: Workload) -> Vec<Box<dyn Contender>> {
    peers.push(ready::<super::runner::Ours>(workload));
    peers
}

#[cfg(not(linked))]
fn with_ours(peers: Vec<Box<dyn Contender>>, _: Workload) -> Vec<Box<dyn Contender>> {
    peers
}

/// A time counts only for the same picture and the same file.
fn check(name: &str, set: &mut [Box<dyn Contender>]) {
    set.iter_mut().for_each(|contender| {
        contender.spell(1);
    });
    let alike = set.iter().all(|contender| contender.left() == set[0].left());
    assert!(alike, "the contenders leave different bytes in {name}: their times cannot be compared");
}

fn calibrated(contender: &mut Box<dyn Contender>) -> u64 {
    let mut passes = 1;
    loop {
        let took = contender.spell(passes);
        if took >= SPELL / 2 {
            return (passes as f64 * SPELL.as_secs_f64() / took.as_secs_f64()).ceil() as u64;
        }
        passes *= 2;
    }
}

fn row(name: &'static str, unit: &'static str, times: Vec<Vec<f64>>) -> Row {
    let mut medians = times.into_iter().map(median);
    let mut next = || medians.next();
    let [plain, tuned, formulas] = std::array::from_fn(|_| next().unwrap_or(f64::NAN));
    Row { name, unit, ours: next(), plain, tuned, formulas }
}

fn median(mut times: Vec<f64>) -> f64 {
    times.sort_by(f64::total_cmp);
    times[times.len() / 2]
}
