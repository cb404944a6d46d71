//! PBM through the library and the model: damaged files, and pictures there and back.

use against::call::Call;
use against::case::Case;
use against::convert::format_number;
use against::difference::{smallest, told};
use against::draw::arguments::{bytes, file_bytes};
use against::draw::damage::{Due, DAMAGES};
use against::draw::pbm::{drawn, file};
use against::draw::states::FORMATS;
use against::flat::ALL_ONES;
use against::library::Library;
use against::model::Model;
use against::random::Random;
use against::scene::{Outcome, Scene};
use second::Format;
use std::thread;

const FILES: u64 = 20_000;
/// How often each number and each damage must come up.
const OFTEN: u64 = 100;
/// How many damages are tried on a picture's file.
const DAMAGES_OF_ONE: u64 = 50;

/// How often each number came up, and each damage where the lent picture was of the right length.
struct Met {
    numbers: [u64; 256],
    damages: [u64; DAMAGES.len()],
}

/// In two halves at once: it takes some time.
#[test]
fn damaged_files() {
    let halves = [2, 4].map(|seed| thread::spawn(move || damaged(Random::new(seed), FILES / 2)));
    let halves = halves.map(|half| half.join().expect("each half passes"));
    let met = |count: &dyn Fn(&Met) -> u64| halves.iter().map(count).sum::<u64>();
    let numbers =
        [0, 2, 10, 11, 12].map(|number| (format!("number {number}"), met(&|half| half.numbers[number])));
    let damages = DAMAGES.iter().enumerate();
    let damages = damages.map(|(place, (name, ..))| (name.to_string(), met(&|half| half.damages[place])));
    for (what, count) in numbers.into_iter().chain(damages) {
        assert!(count >= OFTEN, "{what}: only {count} files, where at least {OFTEN} are wanted.");
    }
}

fn damaged(mut random: Random, files: u64) -> Met {
    let library = Library::reach();
    let mut scene = Scene::default();
    let mut met = Met { numbers: [0; 256], damages: [0; DAMAGES.len()] };
    for _ in 0..files / DAMAGES_OF_ONE {
        let format = format(&mut random);
        let picture = drawn(&mut random, format);
        let whole = file(format, &picture);
        for _ in 0..DAMAGES_OF_ONE {
            let damage = damage(&mut random);
            let lent = if random.percent(98) { bytes(format) } else { bytes(format) - 1 };
            let file = DAMAGES[damage].2(&mut random, whole.clone());
            scene.file.lay(&whole);
            scene.file.lay(&file);
            scene.picture.refill(&mut random);
            let call = Call::ReadPbm { format: format_number(format), file: file.len(), picture: lent };
            let number = agreed(&mut scene, &library, call).model.number();
            met.numbers[usize::from(number)] += 1;
            let after = scene.picture.lent(lent);
            let (name, due, _) = DAMAGES[damage];
            if number != 0 {
                assert!(after == scene.before().picture, "{name}: number {number}, but the picture changed");
            }
            if lent == bytes(format) {
                met.damages[damage] += 1;
                let is_same = after == picture;
                assert!(is_kept(due, number, is_same), "{name}: number {number}, but {due:?} is due");
            } else {
                assert_eq!(number, 2);
            }
        }
    }
    met
}

/// Small pictures most often: the emulator takes some time for each dot.
fn format(random: &mut Random) -> Format {
    random.weighted(&[(26, Format::Ef9365Low), (4, Format::Ef9366), (2, Format::Ef9365High)])
}

/// Of two drawn one that ends in the head, if there is one, for the same reason.
fn damage(random: &mut Random) -> usize {
    let drawn = [0; 2].map(|_| random.below(DAMAGES.len() as u64) as usize);
    let ends_in_head = |damage: &&usize| matches!(DAMAGES[**damage].1, Due::Refused(10 | 11));
    *drawn.iter().find(ends_in_head).unwrap_or(&drawn[0])
}

fn is_kept(due: Due, number: u8, is_same: bool) -> bool {
    match due {
        Due::Same => number == 0 && is_same,
        Due::Accepted => number == 0,
        Due::Refused(refusal) => number == refusal,
        Due::Any => true,
    }
}

/// Plays a call on which both agree; a difference is told as one call that shows it by itself.
fn agreed(scene: &mut Scene, library: &Library, call: Call) -> Outcome {
    let outcome = scene.play(library, &Model, ALL_ONES, call);
    if !outcome.agrees() {
        let case = Case { state: ALL_ONES, call, lent: scene.before().clone(), promise: None };
        let (case, outcome) = smallest(case.clone(), library, &Model).unwrap_or((case, outcome));
        let mut words = String::new();
        told(&mut words, &case, &outcome).expect("a string takes all words");
        panic!("A difference. The smallest found:\n    differ call {case}\n{words}");
    }
    outcome
}

#[test]
fn there_and_back() {
    let library = Library::reach();
    let mut random = Random::new(3);
    let mut scene = Scene::default();
    for format in FORMATS {
        let (number, picture, buffer) = (format_number(format), bytes(format), file_bytes(format));
        for _ in 0..50 {
            scene.picture.refill(&mut random);
            let before = scene.picture.lent(picture).to_vec();
            let written = agreed(&mut scene, &library, Call::WritePbm { format: number, picture, buffer });
            scene.picture.refill(&mut random);
            let read = agreed(&mut scene, &library, Call::ReadPbm { format: number, file: buffer, picture });
            assert_eq!((written.library.number(), read.library.number()), (0, 0));
            assert!(scene.picture.lent(picture) == before, "{format:?}");
        }
    }
}
