//! Clears over lists of VB levels, held against a plain count of the frames.

mod common;

use common::clears::left_by;
use common::random::Random;
use common::{picture_bytes, Card, CLEARS, FORMATS, NO_FLAGS, TWO_FRAMES};
use second::{ClearKind, Flags, Pen, State, Work};

const LISTS: usize = 3_000;
const READY_MASK: u8 = 0x40;

/// The rises after the first fall since the acceptance. A level that is there already is none of them.
fn frames_over(at_acceptance: bool, levels: &[bool]) -> usize {
    let mut seen = [&[at_acceptance], levels].concat();
    seen.dedup();
    seen.iter().skip(1).skip_while(|&&level| level).filter(|&&level| level).count()
}

#[test]
fn the_count_by_hand() {
    let (low, high) = (false, true);
    for (at_acceptance, levels, over) in [
        (low, &[][..], 0),
        (low, &[low, high, high], 0),
        (low, &[high, low, low], 0),
        (low, &[high, low, high], 1),
        (low, &[high, high, low, low, high, high, low], 1),
        (low, &[high, low, high, low, high], 2),
        (high, &[high, low], 0),
        (high, &[low, high, high], 1),
        (high, &[low, high, low, high], 2),
        (high, &[low, high, low, high, low, high], 3),
    ] {
        assert_eq!(frames_over(at_acceptance, levels), over, "{at_acceptance} {levels:?}");
    }
}

/// A clear that has just been accepted, over a picture of any bytes and with the pen waiting too.
struct Begun {
    card: Card,
    kind: ClearKind,
    takes: usize,
    /// What every byte of the picture is at the end.
    left: u8,
}

fn any_begun(random: &mut Random) -> Begun {
    let mut card = Card::new(random.pick(&FORMATS));
    card.picture = random.bytes(picture_bytes(card.state.format));
    // Neither the VB mask nor that of the pen, so that a flag tells of ready alone.
    let ctrl1 = random.byte() & 0x4F;
    let (code, kind) = random.pick(&CLEARS);
    card.vb(random.flag()).command(0x08).write(1, ctrl1).command(code);
    assert_eq!(card.state.flags, NO_FLAGS);
    let takes = if card.state.format == TWO_FRAMES { 2 } else { 1 };
    Begun { card, kind, takes, left: left_by(code, ctrl1) }
}

/// Each level comes up to three times over, in turn, so that a list has a few frames.
fn any_levels(random: &mut Random) -> Vec<bool> {
    let mut level = random.flag();
    let mut levels = Vec::new();
    for _ in 0..random.below(9) {
        levels.extend(vec![level; 1 + random.below(3) as usize]);
        level = !level;
    }
    levels
}

impl Begun {
    /// All that the state has to be after these levels.
    fn expected(&self, levels: &[bool]) -> State {
        let accepted = self.card.state;
        let over = frames_over(accepted.vb, levels);
        let vb = levels.last().copied().unwrap_or(accepted.vb);
        // Between its fall and its rise: one more would be over if VB rose now.
        let open = frames_over(accepted.vb, &[levels, &[true]].concat()) > over;
        let ended = over >= self.takes;
        let work = Work::Clear { kind: self.kind, open, frames_done: over as u8 };
        State {
            vb,
            work: if ended { Work::Idle } else { work },
            pen: match (over, open) {
                (0, true) => Pen::Open,
                (0, false) => Pen::Waiting,
                _ => Pen::Off,
            },
            flags: Flags { ready: ended && accepted.ctrl1 & READY_MASK != 0, ..NO_FLAGS },
            ..accepted
        }
    }
}

// readings b.1 to b.4
#[test]
fn lists_of_levels_against_the_count() {
    let mut random = Random(0x2F4A_3E50);
    let mut seen = [[0; 3]; 2];
    for _ in 0..LISTS {
        let begun = any_begun(&mut random);
        let levels = any_levels(&mut random);
        let mut card = begun.card.clone();
        for at in 0..levels.len() {
            let expected = begun.expected(&levels[..=at]);
            assert_eq!(card.vb(levels[at]).state, expected, "{:?} {levels:?} {at}", begun.card.state);
            if expected.work == Work::Idle {
                assert!(card.picture.iter().all(|&byte| byte == begun.left), "{levels:?} {at}");
            } else {
                assert!(card.picture == begun.card.picture, "{levels:?} {at}");
            }
        }
        let over = frames_over(begun.card.state.vb, &levels);
        seen[begun.takes - 1][over.min(2)] += 1;
    }
    assert!(seen.iter().flatten().all(|&lists| lists > 100), "{seen:?}");
}

/// Reads, grants and edges between the levels: the clear stands as it would without them.
#[test]
fn other_calls_between_the_levels() {
    let mut random = Random(0xB10C_CA15);
    for _ in 0..LISTS {
        let begun = any_begun(&mut random);
        let levels = any_levels(&mut random);
        let mut card = begun.card.clone();
        let mut alone = begun.card;
        for &level in &levels {
            for _ in 0..random.below(3) {
                disturb(&mut card, &mut random);
            }
            assert_eq!(card.vb(level).state.work, alone.vb(level).state.work, "{levels:?}");
            assert!(card.picture == alone.picture, "{levels:?}");
        }
    }
}

fn disturb(card: &mut Card, random: &mut Random) {
    match random.below(4) {
        0 => assert_eq!(card.grant(random.below(65_536) as u16), 0),
        1 => {
            card.edge(random.below(64) as u16, random.below(256) as u16);
        }
        2 => {
            let level = card.state.vb;
            card.vb(level);
        }
        _ => {
            card.read(random.pick(&[0, 1, 2, 3, 5, 7, 8, 9, 10, 11, 12, 13]));
        }
    }
}
