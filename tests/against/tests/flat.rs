//! The flat form loses nothing; what is not in use changes no answer; a number that names nothing stands for no state.

use against::call::Reply;
use against::convert::{cleaned, flattened, has_left_overs, state_of};
use against::draw::{impossible, left_over, no_state, single, states};
use against::flat::{Flat, FlatAnswer, FIRST_FRAME_OVER};
use against::model::Model;
use against::random::Random;
use against::scene::Scene;
use second::{fresh, ClearKind, Flags, Format, Pen, State, Work};

/// As `include/gdp.h` says, worked out by hand.
#[test]
fn three_states_in_bytes() {
    let flags = Flags { pen_end: true, vb_rise: false, ready: true };
    let clear = Work::Clear { kind: ClearKind::Fill, open: true, frames_done: 0 };
    let state = State { work: clear, pen: Pen::Waiting, flags, x: 0x123, ..fresh(Format::Ef9365Low) };
    let bytes = [0x23, 0x01, 0, 0, 0, 0, 0, 0, 0x11, 0, 0, 0, 0, 0, 0b0111_0010, 0b0101_0100];
    assert_eq!(flattened(&state).bytes(), bytes);

    let clear = Work::Clear { kind: ClearKind::Screen, open: false, frames_done: 1 };
    let state = State { work: clear, vb: true, ..fresh(Format::Ef9365High) };
    let bytes = [0, 0, 0, 0, 0, 0, 0, 0, 0x11, 0, 0, 0, 0, 0, 0b1001_0001, 0b0000_0010];
    assert_eq!(flattened(&state).bytes(), bytes);

    let flags = Flags { pen_end: false, vb_rise: true, ready: false };
    let steps = Work::Steps { code: 0x41, done: 47 };
    let state = State { work: steps, flags, vb: true, ylp: 9, ..fresh(Format::Ef9365High) };
    let bytes = [0, 0, 0, 0, 47, 0, 0, 0, 0x11, 0, 0, 0, 9, 0x41, 0b0000_1001, 0b0010_0010];
    assert_eq!(flattened(&state).bytes(), bytes);
}

#[test]
fn there_and_back() {
    let mut random = Random::new(16);
    for _ in 0..20_000 {
        let good = states::good(&mut random);
        assert_eq!(state_of(&flattened(&good)), Some(good));
        for (name, planted) in impossible::CAUSES {
            let state = planted(&mut random);
            assert_eq!(state_of(&flattened(&state)), Some(state), "{name}");
        }
    }
}

#[test]
fn a_value_that_is_no_state() {
    let mut random = Random::new(17);
    for _ in 0..20_000 {
        for (name, planted) in no_state::CAUSES {
            assert_eq!(state_of(&planted(&mut random)), None, "{name}");
        }
        let any = no_state::bytes(&mut random);
        let state = state_of(&any);
        assert!(state.is_none_or(|state| state_of(&flattened(&state)) == Some(state)));
    }
}

#[test]
fn what_is_left_over_stands_for_nothing() {
    let mut random = Random::new(18);
    for _ in 0..2_000 {
        for (kind, (name, _, _)) in left_over::KINDS.iter().enumerate() {
            let (state, flat) = left_over::planted(&mut random, kind);
            assert_eq!(cleaned(&flat), Some(flattened(&state)), "{name}");
            assert!(has_left_overs(&flat) && !has_left_overs(&flattened(&state)), "{name}");
        }
        for (name, planted) in impossible::CAUSES {
            let bad = flattened(&planted(&mut random));
            assert!(!has_left_overs(&bad), "{name}");
            assert_eq!(cleaned(&left_over::scattered(&mut random, bad)), Some(bad), "{name}");
        }
    }
}

/// The mark of a first frame is handed to the model wherever a clear runs; elsewhere it has no place for it.
#[test]
fn what_the_model_is_told_of_a_first_frame() {
    let mut random = Random::new(20);
    for _ in 0..20_000 {
        let good = states::good(&mut random);
        let clean = flattened(&good);
        let marked = Flat { modes: clean.modes | FIRST_FRAME_OVER, ..clean };
        let told = match good.work {
            Work::Clear { kind, open, .. } => Work::Clear { kind, open, frames_done: 1 },
            other => other,
        };
        assert_eq!(state_of(&marked), Some(State { work: told, ..good }));
        let in_use = matches!(good.work, Work::Clear { .. }) && good.format == Format::Ef9365High;
        assert_eq!(has_left_overs(&marked), !in_use, "{good:?}");
    }
}

/// The model answers for bytes with left-overs as for those without, but that a refusal hands them back as they came.
#[test]
fn what_is_left_over_changes_no_answer() {
    let mut random = Random::new(19);
    let mut scene = Scene::default();
    for _ in 0..500 {
        scene.picture.refill(&mut random);
        scene.table.refill(&mut random);
        for (kind, (name, _, _)) in left_over::KINDS.iter().enumerate() {
            let (state, flat) = left_over::planted(&mut random, kind);
            let call = single::call(&mut random, &flat);
            let found = call.made(&Model, flat, scene.to_library(call.lends()));
            let clean = flattened(&state);
            let wanted = call.made(&Model, clean, scene.to_model(call.lends()));
            assert_eq!(found, handed_back(wanted, flat), "{name}: {call}");
            assert!(scene.picture.fault().is_none() && scene.table.fault().is_none(), "{name}: {call}");
        }
    }
}

fn handed_back(reply: Reply, flat: Flat) -> Reply {
    match reply {
        Reply::Answer(answer) if answer.number != 0 => Reply::Answer(FlatAnswer { state: flat, ..answer }),
        accepted => accepted,
    }
}
