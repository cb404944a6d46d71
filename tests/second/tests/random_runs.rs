//! What must hold for any good state: splitting grants, staying good, going on without a fault.

mod common;

use common::random::Random;
use common::{cycle_count, is_good, picture_bytes};
use second::{address, cycles, lpck, read, set_vb, write, State, Work};

#[test]
fn a_split_grant_equals_a_whole_one() {
    let mut random = Random(0x00C0_FFEE);
    let table = random.bytes(480);
    for _ in 0..3_000 {
        let state = random.good_state();
        let picture = random.bytes(picture_bytes(state.format));
        let reach = random.pick(&[4, 60, 300, 13_000]);
        let (j, k) = (random.below(reach) as u16, random.below(reach) as u16);

        let mut in_two = picture.clone();
        let first = cycles(&state, j, &mut in_two, &table);
        let second = cycles(&first.state, k, &mut in_two, &table);
        let mut at_once = picture;
        let whole = cycles(&state, j + k, &mut at_once, &table);

        assert_eq!((first.number, second.number, whole.number), (0, 0, 0));
        assert_eq!(first.value + second.value, whole.value, "{state:?} {j} {k}");
        assert_eq!(second.state, whole.state, "{state:?} {j} {k}");
        assert!(in_two == at_once, "{state:?} {j} {k}");
    }
}

#[test]
fn one_cycle_at_a_time_equals_a_whole_grant() {
    let mut random = Random(0xBADC_AB1E);
    let table = random.bytes(480);
    for _ in 0..300 {
        let state = random.good_state();
        let picture = random.bytes(picture_bytes(state.format));
        let (mut singly, mut at_once) = (picture.clone(), picture);
        let mut present = state;
        let mut used = 0;
        loop {
            let answer = cycles(&present, 1, &mut singly, &table);
            present = answer.state;
            if answer.value == 0 {
                break;
            }
            used += 1;
        }
        let whole = cycles(&state, 65_535, &mut at_once, &table);
        assert_eq!((whole.value, whole.state), (used, present));
        assert!(singly == at_once, "{state:?}");
    }
}

#[test]
fn used_is_the_smaller_of_granted_and_left() {
    let mut random = Random(0x5EED);
    let table = random.bytes(480);
    let mut pictures = common::FORMATS.map(|format| common::picture(format, 0));
    for _ in 0..20_000 {
        let state = random.good_state();
        let lent = pictures.iter_mut().find(|lent| lent.len() == picture_bytes(state.format)).unwrap();
        let n = random.below(400) as u16;
        let answer = cycles(&state, n, lent, &table);
        let left = match state.work {
            Work::Steps { code, done } => cycle_count(&state, code).unwrap() - u32::from(done),
            _ => 0,
        };
        assert_eq!(u32::from(answer.value), left.min(u32::from(n)), "{state:?} {n}");
    }
}

/// A cycles call moves X, Y, the progress and the ready flag, and nothing else.
#[test]
fn cycles_leave_the_other_fields() {
    let mut random = Random(0xFACE);
    let table = random.bytes(480);
    let mut pictures = common::FORMATS.map(|format| common::picture(format, 0));
    for _ in 0..20_000 {
        let state = random.good_state();
        let lent = pictures.iter_mut().find(|lent| lent.len() == picture_bytes(state.format)).unwrap();
        let after = cycles(&state, random.below(400) as u16, lent, &table).state;
        let mut flags = state.flags;
        flags.ready = after.flags.ready;
        assert_eq!(State { x: after.x, y: after.y, work: after.work, flags, ..state }, after);
        let ended = state.work != Work::Idle && after.work == Work::Idle;
        assert_eq!(after.flags.ready, state.flags.ready || ended && state.ctrl1 & 0x40 != 0);
    }
}

// reading 10: an accepted call from a good state leads to a good state
#[test]
fn good_states_stay_good() {
    let mut random = Random(0x0BAD_F00D);
    let table = random.bytes(480);
    for _ in 0..300 {
        let mut state = random.good_state();
        let mut picture = random.bytes(picture_bytes(state.format));
        for _ in 0..200 {
            let answer = match random.below(8) {
                0..=2 => write(&state, random.below(16) as u8, random.byte()),
                3 => write(&state, 0, random.byte()),
                4 => read(&state, random.below(16) as u8),
                5 => cycles(&state, random.below(300) as u16, &mut picture, &table),
                6 => set_vb(&state, !state.vb, &mut picture),
                _ => lpck(&state, random.below(64) as u16, random.below(256) as u16),
            };
            assert_ne!(answer.number, 1, "{state:?}");
            assert!(is_good(&answer.state), "{state:?} led to {:?}", answer.state);
            assert_eq!(address(&answer.state).number, 0);
            state = answer.state;
        }
    }
}

/// Arbitrary states and arguments: refused or not, no call may fault, and a refusal changes nothing.
#[test]
fn every_call_is_total() {
    let mut random = Random(0x7074_616C);
    for _ in 0..20_000 {
        let state = wild(&mut random);
        let good = is_good(&state);
        let mut lent = common::picture(state.format, 0x5A);
        let length = random.pick(&[lent.len(), lent.len(), 0, 1, 100]);
        let table = vec![0xFF; random.pick(&[480, 480, 0, 481])];
        let answers = [
            write(&state, random.byte(), random.byte()),
            read(&state, random.byte()),
            lpck(&state, random.below(65_536) as u16, random.below(65_536) as u16),
            cycles(&state, random.below(100) as u16, &mut lent[..length], &table),
        ];
        if answers[3].number != 0 {
            assert!(lent.iter().all(|&byte| byte == 0x5A));
        }
        for answer in answers {
            assert_eq!(answer.number == 1, !good, "{state:?}");
            if answer.number != 0 {
                assert_eq!((answer.value, answer.state), (0, state));
            }
        }
        lent.fill(0x5A);
        let answer = set_vb(&state, random.flag(), &mut lent[..length]);
        assert_eq!(answer.number == 1, !good, "{state:?}");
        assert!(answer.number == 0 || lent.iter().all(|&byte| byte == 0x5A));
        assert_eq!(address(&state).number == 1, !good, "{state:?}");
    }
}

/// Every field over its whole type.
fn wild(random: &mut Random) -> State {
    let mut state = random.any_state();
    match random.below(4) {
        0 => {}
        1 => state.work = Work::Steps { code: random.byte(), done: random.below(65_536) as u16 },
        2 => (state.x, state.y) = (random.below(65_536) as u16, random.below(65_536) as u16),
        _ => {
            (state.ctrl1, state.ctrl2, state.xlp) = (random.byte(), random.byte(), random.byte());
            (state.csize, state.deltax, state.deltay) = (random.byte(), random.byte(), random.byte());
        }
    }
    state
}
