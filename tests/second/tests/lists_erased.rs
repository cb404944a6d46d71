//! Demand 3: a list played with the pen, its registers put back, then played with the eraser,
//! leaves every dot of the list dark and every other dot as at the start.

mod common;

use common::dots::{both, is_dark, one_dot, united, without};
use common::numbers::write_number;
use common::random::Random;
use common::{cycle_count, picture, picture_bytes, size, takes_glyph_cells, Card};
use second::{Flags, State, Work};

const LISTS: usize = 10_000;
const DOWN: u8 = 1;
const PEN: u8 = 2;
const TILT: u8 = 4;

/// Addresses that no write is accepted at, and the number given.
const REFUSED: [(u8, u8); 6] = [(0x4, 4), (0x6, 4), (0xC, 5), (0xD, 5), (0xE, 4), (0xF, 4)];

/// A register address and the byte written there; address 0 takes the commands.
type Item = (u8, u8);

/// How many lists did what.
#[derive(Default, Debug)]
struct Counts {
    wrote: usize,
    /// Wrote, with a tilted character among the commands.
    tilted: usize,
    refused: usize,
    pen_up: usize,
    restored: usize,
    /// Restored though the list wrote dots and the picture was not dark.
    restored_among_lit: usize,
    not_restored: usize,
}

impl Counts {
    fn add(&mut self, start: &Card, list: &[Item], dots: &[u8], refused: bool) {
        let wrote = !is_dark(dots);
        let untouched = is_dark(&both(&start.picture, dots));
        self.wrote += usize::from(wrote);
        self.tilted += usize::from(wrote && tilts_a_character(&start.state, list));
        self.refused += usize::from(refused);
        self.pen_up += usize::from(start.state.ctrl1 & DOWN == 0);
        self.restored += usize::from(untouched);
        self.restored_among_lit += usize::from(untouched && wrote && !is_dark(&start.picture));
        self.not_restored += usize::from(!untouched);
    }
}

#[test]
fn a_list_is_erased_by_playing_it_again() {
    let mut random = Random(0x3E5A_5ED1_1575);
    let mut counts = Counts::default();
    let mut played = [false; 256];
    for number in 0..LISTS {
        let list = any_list(&mut random);
        list.iter().filter(|item| item.0 == 0).for_each(|item| played[usize::from(item.1)] = true);
        check(&list, number, &mut random, &mut counts);
    }
    println!("{counts:?}");
    assert_eq!(played.iter().filter(|&&code| code).count(), 16 + 128 + 96 + 2 + 3, "every command of a list");
    assert!(counts.wrote > 6_000 && counts.tilted > 3_000, "{counts:?}");
    assert!(counts.refused > 2_000 && counts.pen_up > 400, "{counts:?}");
    assert!(counts.restored > 3_000 && counts.restored_among_lit > 1_500, "{counts:?}");
    assert!(counts.not_restored > 2_000, "{counts:?}");
}

fn check(list: &[Item], number: usize, random: &mut Random, counts: &mut Counts) {
    let mut start = any_start(random);
    let dots = dots_of(&start, list, number, random);
    start.picture = any_picture(&start, &dots, random);
    let before = &start.picture;

    let mut card = start.clone();
    let refused = play(&mut card, list, random);
    let drawn = card.clone();
    assert!(drawn.picture == united(before, &dots), "list {number}: the pen lights its dots alone");
    check_pen_again(&start, &drawn, list, number, random);
    check_pen_up(&start, &drawn, list, number, random);

    put_back(&mut card, &start.state, random);
    take_eraser(&mut card, number % 2 == 1);
    assert_eq!(play(&mut card, list, random), refused, "list {number}: the same items are refused");
    let untouched = is_dark(&both(before, &dots));
    assert!(is_dark(&both(&card.picture, &dots)), "list {number}: its dots are dark");
    assert!(without(&card.picture, &dots) == without(before, &dots), "list {number}: others are as before");
    assert_eq!(card.picture == *before, untouched, "list {number}: restored when none was lit");
    check_registers(&card.state, &drawn.state, PEN, number);

    counts.add(&start, list, &dots, refused > 0);
}

/// What the pen lights in the dark, which must be what the eraser darkens where all is lit.
fn dots_of(start: &Card, list: &[Item], number: usize, random: &mut Random) -> Vec<u8> {
    let mut pen = start.clone();
    pen.picture.fill(0x00);
    play(&mut pen, list, random);
    let mut eraser = start.clone();
    eraser.picture.fill(0xFF);
    eraser.state.ctrl1 &= !PEN;
    play(&mut eraser, list, random);
    let darkened = without(&picture(start.state.format, 0xFF), &eraser.picture);
    assert!(pen.picture == darkened, "list {number}: pen and eraser name the same dots");
    darkened
}

fn check_pen_again(start: &Card, drawn: &Card, list: &[Item], number: usize, random: &mut Random) {
    let mut card = drawn.clone();
    put_back(&mut card, &start.state, random);
    play(&mut card, list, random);
    assert!(card.picture == drawn.picture, "list {number}: twice with the pen is once");
    check_registers(&card.state, &drawn.state, 0, number);
}

fn check_pen_up(start: &Card, drawn: &Card, list: &[Item], number: usize, random: &mut Random) {
    let mut card = start.clone();
    card.state.ctrl1 &= !DOWN;
    play(&mut card, list, random);
    assert!(card.picture == start.picture, "list {number}: nothing is written with the pen up");
    check_registers(&card.state, &drawn.state, start.state.ctrl1 & DOWN, number);
}

/// All is as after the first run but for these bits of CTRL1; the ready flag may have risen since.
fn check_registers(last: &State, first: &State, ctrl1_bits: u8, number: usize) {
    let flags = Flags { ready: last.flags.ready, ..first.flags };
    assert_eq!(*last, State { ctrl1: first.ctrl1 ^ ctrl1_bits, flags, ..*first }, "list {number}");
}

/// Each command is run to its end; gives how many items were refused.
fn play(card: &mut Card, list: &[Item], random: &mut Random) -> usize {
    list.iter().filter(|&&item| !takes(card, item, random)).count()
}

fn takes(card: &mut Card, (address, value): Item, random: &mut Random) -> bool {
    if let Some((_, number)) = REFUSED.into_iter().find(|row| row.0 == address) {
        assert_eq!(write_number(&card.state, address, value), number);
        return false;
    }
    card.write(address, value);
    run_to_end(card, random);
    true
}

/// Grants of any size, some of them of no cycle and the last often of too many.
fn run_to_end(card: &mut Card, random: &mut Random) {
    let Work::Steps { code, .. } = card.state.work else {
        return assert_eq!(card.state.work, Work::Idle);
    };
    let count = cycle_count(&card.state, code).expect("a command of write cycles");
    let mut used = 0;
    while card.state.work != Work::Idle {
        used += u32::from(card.grant(random.below(u64::from(count / 2 + 2)) as u16));
    }
    assert_eq!(used, count, "{code:02X}");
}

/// By register writes, of which any may come first.
fn put_back(card: &mut Card, start: &State, random: &mut Random) {
    let ([x_upper, x_lower], [y_upper, y_lower]) = (start.x.to_be_bytes(), start.y.to_be_bytes());
    let places = [(0x8, x_upper), (0x9, x_lower), (0xA, y_upper), (0xB, y_lower)];
    let others = [(0x5, start.deltax), (0x7, start.deltay), (0x3, start.csize), (0x2, start.ctrl2)];
    let mut writes = [places, others].concat();
    writes.rotate_left(random.below(8) as usize);
    for (address, value) in writes {
        card.write(address, value);
    }
}

fn take_eraser(card: &mut Card, by_command: bool) {
    let ctrl1 = card.state.ctrl1 & !PEN;
    let (address, value) = if by_command { (0, 0x01) } else { (1, ctrl1) };
    card.write(address, value);
    assert_eq!((card.state.ctrl1, card.state.work), (ctrl1, Work::Idle));
}

fn any_list(random: &mut Random) -> Vec<Item> {
    (0..random.below(21)).map(|_| any_item(random)).collect()
}

/// Whether any character comes after tilt was made high, by the start or by a write of CTRL2.
fn tilts_a_character(start: &State, list: &[Item]) -> bool {
    let mut ctrl2 = start.ctrl2;
    list.iter().any(|&(address, value)| {
        if address == 2 {
            ctrl2 = value;
        }
        address == 0 && takes_glyph_cells(value) && ctrl2 & TILT != 0
    })
}

fn any_item(random: &mut Random) -> Item {
    match random.below(17) {
        0 => (random.pick(&[0x8, 0xA]), if random.flag() { random.byte() } else { random.byte() & 0xF1 }),
        1 => (random.pick(&[0x9, 0xB]), random.byte()),
        2 => (random.pick(&[5, 7]), random.byte()),
        3 => (3, any_size(random)),
        4 => (2, random.byte()),
        5 => (0, random.pick(&[0x05, 0x0D, 0x0E])),
        6..=8 => (0, 0x10 + random.below(16) as u8),
        9 | 10 => (0, 0x80 + random.below(128) as u8),
        11 => (0, random.pick(&[0x0A, 0x0B])),
        12 => (random.pick(&REFUSED).0, random.byte()),
        _ => (0, 0x20 + random.below(96) as u8),
    }
}

/// Mostly small, so that a list does not take long.
fn any_size(random: &mut Random) -> u8 {
    match random.below(12) {
        0 => random.byte(),
        _ => (0x11 + 0x10 * random.below(3) + random.below(3)) as u8,
    }
}

/// Idle with the pen, mostly down; in half of them the place is in the window.
fn any_start(random: &mut Random) -> Card {
    let up = random.below(16) == 0;
    let ctrl1 = random.byte() & 0x7E | PEN | if up { 0 } else { DOWN };
    let mut state = State { work: Work::Idle, ctrl1, csize: any_size(random), ..random.good_state() };
    if random.flag() {
        let (width, height) = size(state.format);
        state.x = random.below(width as u64) as u16;
        state.y = random.below(height as u64) as u16;
    }
    Card { state, picture: picture(state.format, 0), table: random.bytes(480) }
}

/// Dark, any bytes, a few of them, any with the dots of the list dark, or these but for one dot.
fn any_picture(start: &Card, dots: &[u8], random: &mut Random) -> Vec<u8> {
    let dark = picture(start.state.format, 0);
    let any = random.bytes(picture_bytes(start.state.format));
    match random.below(5) {
        0 => dark,
        1 => any,
        2 => any.iter().map(|&byte| if random.below(99) == 0 { byte } else { 0 }).collect(),
        3 => without(&any, dots),
        _ => united(&without(&any, dots), &one_dot(dots, random)),
    }
}
