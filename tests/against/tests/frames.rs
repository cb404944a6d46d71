//! Clears carried from their command to their end, each card by itself: with FMAT high the second frame that a VB fall
//! after the command begins ends one, in the other formats the first. Until then the picture stays and ready is low.

use against::card::Card;
use against::draw::arguments::{bytes, TABLE_BYTES};
use against::draw::count;
use against::draw::states::FORMATS;
use against::library::Library;
use against::model::Model;
use against::panel::Panel;
use against::random::Random;

const CLEARS: [u8; 4] = [0x04, 0x06, 0x07, 0x0C];
/// CTRL1: the pen, and the mask of the ready flag.
const PEN: u8 = 1 << 1;
const READY_MASK: u8 = 1 << 6;
/// STATUS.
const READY: u16 = 1 << 2;
const READY_FLAG: u16 = 1 << 6;
const BUSY: u8 = 6;

/// STATUS, its flags left as they are.
fn status(panel: &Panel<impl Card>) -> u16 {
    panel.card.read(panel.state, 0).value
}

/// What a host may do while it waits; nothing of it counts as a frame.
fn wait(panel: &mut Panel<impl Card>, random: &mut Random) {
    match random.below(4) {
        0 => assert_eq!(panel.grant(random.word()), 0),
        1 => assert_eq!(panel.card.write(panel.state, random.pick(&[0, 1, 9]), 0x04).number, BUSY),
        2 => {
            let answer = panel.card.lpck(panel.state, random.among(0, 63), random.among(0, 255));
            panel.accepted(answer);
        }
        _ => {
            let answer = panel.card.read(panel.state, random.among(1, 3) as u8);
            panel.accepted(answer);
        }
    }
}

/// Levels of VB at random until the clear is over.
fn carried(card: &impl Card, random: &mut Random, format: usize, code: u8) {
    let mut panel =
        Panel::fresh(card, format as u8, vec![0; bytes(FORMATS[format])], vec![0xFF; TABLE_BYTES]);
    random.fill(&mut panel.picture);
    panel.write(1, random.byte() & PEN | READY_MASK);
    let mut vb = random.flag();
    panel.set_vb(vb);
    panel.write(0, code);
    let (before, lit) = (panel.picture.clone(), code == 0x0C && panel.state.ctrl1 & PEN != 0);
    let mut falls = 0;
    loop {
        assert!(panel.picture == before, "{code:02X} on format {format} after {falls} falls");
        assert_eq!(status(&panel) & (READY | READY_FLAG), 0, "{code:02X} on format {format}");
        wait(&mut panel, random);
        let level = random.flag();
        panel.set_vb(level);
        let rises = level && !vb;
        falls += u8::from(!level && vb);
        vb = level;
        if rises && falls == count::frames(FORMATS[format]) {
            break;
        }
    }
    let filled = if lit { 0xFF } else { 0x00 };
    assert!(panel.picture.iter().all(|byte| *byte == filled), "{code:02X} on format {format}");
    // 07 has cleared the mask.
    let flag = if code == 0x07 { 0 } else { READY_FLAG };
    assert_eq!(status(&panel) & (READY | READY_FLAG), READY | flag, "{code:02X} on format {format}");
    assert_eq!(usize::from(panel.state.modes), format, "nothing runs, and nothing is left over");
}

fn every_clear(card: &impl Card) {
    let mut random = Random::new(512);
    for _ in 0..50 {
        for format in 0..FORMATS.len() {
            CLEARS.iter().for_each(|code| carried(card, &mut random, format, *code));
        }
    }
}

#[test]
fn by_the_library() {
    every_clear(&Library::reach());
}

#[test]
fn by_the_model() {
    every_clear(&Model);
}
