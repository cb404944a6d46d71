//! Characters and blocks of all four ways, straight, slanted, upwards and slanted upwards, each card by itself held to
//! the printed formulas: after any portion of the cycles the dots, X and Y, and the rest of the state. And lists with
//! them, drawn with the pen and then with the eraser: the dots they write are dark, all others as they were.

use against::card::Card;
use against::convert::state_of;
use against::draw::arguments::TABLE_BYTES;
use against::draw::letter::{code, place_in_sight};
use against::draw::states::{csize, ctrl1, delta, FORMATS};
use against::draw::{count, pbm};
use against::flat::{Flat, READY_FLAG, WORK};
use against::formula::{stepped_around, written, Character, DOWN, PEN, TILT};
use against::library::Library;
use against::model::Model;
use against::panel::Panel;
use against::random::Random;
use second::State;

/// Of each way.
const CHARACTERS: usize = 1_000;
const LISTS: usize = 400;
/// CTRL1: the mask of the ready flag.
const READY_MASK: u8 = 1 << 6;

/// Nothing runs; X and Y are in sight, the other registers of drawing at random.
fn at_random<'c, C: Card>(card: &'c C, random: &mut Random) -> Panel<'c, C> {
    let number = random.below(3) as u8;
    let format = FORMATS[usize::from(number)];
    let (picture, mut table) = (pbm::drawn(random, format), vec![0; TABLE_BYTES]);
    random.fill(&mut table);
    let mut panel = Panel::fresh(card, number, picture, table);
    let (x, y) = place_in_sight(random, format);
    let registers =
        [(1, ctrl1(random)), (2, random.byte()), (3, csize(random)), (5, delta(random)), (7, delta(random))];
    registers.iter().for_each(|(address, value)| panel.write(*address, *value));
    for (address, position) in [(8, x), (10, y)] {
        panel.write(address, (position >> 8) as u8);
        panel.write(address + 1, position as u8);
    }
    panel
}

/// A character that has just been given, and what it must come to.
struct Wanted {
    /// As the card has it then: X and Y where the character begins.
    begun: Flat,
    start: State,
    character: Character,
    count: u16,
    picture: Vec<u8>,
}

impl Wanted {
    fn of(begun: Flat, picture: &[u8]) -> Wanted {
        let start = state_of(&begun).expect("an accepted call hands back a state");
        let character = Character::of(&start, begun.code).expect("a character was given");
        let count = count::cycles(&start, begun.code).expect("it uses write cycles");
        Wanted { begun, start, character, count, picture: picture.to_vec() }
    }

    /// One cycle more: its dot, where it has one and the tip is down.
    fn draw(&mut self, i: u16, table: &[u8]) {
        if self.start.ctrl1 & DOWN == 0 || !self.character.has_dot(i, table) {
            return;
        }
        let dot = self.place(self.character.offset(i));
        if let Some((byte, bit)) = written(self.start.format, self.start.ctrl1, dot) {
            let lights = self.start.ctrl1 & PEN != 0;
            self.picture[byte] = if lights { self.picture[byte] | bit } else { self.picture[byte] & !bit };
        }
    }

    fn place(&self, (x, y): (i32, i32)) -> (i32, i32) {
        stepped_around((i32::from(self.start.x) + x, i32::from(self.start.y) + y))
    }

    /// After so many of its cycles.
    fn state(&self, done: u16) -> Flat {
        let at = |(x, y): (i32, i32)| Flat { x: x as u16, y: y as u16, ..self.begun };
        if done < self.count {
            return Flat { done, ..at(self.place(self.character.offset(done))) };
        }
        let flag = if self.start.ctrl1 & READY_MASK != 0 { READY_FLAG } else { 0 };
        let ended = at(self.place(self.character.end()));
        let (modes, signals) = (ended.modes & !WORK, ended.signals | flag);
        Flat { code: 0, done: 0, modes, signals, ..ended }
    }
}

fn portion(random: &mut Random, rest: u16) -> u16 {
    match random.below(5) {
        0 => random.among(0, 9),
        1 => 65_535,
        2 => rest,
        _ => random.among(1, rest),
    }
}

/// One character to its end, by portions; whether it changed the picture.
fn draws(card: &impl Card, random: &mut Random, way: u8) -> bool {
    let mut panel = at_random(card, random);
    panel.write(2, way << 2 | random.byte() & 3);
    panel.write(0, code(random));
    let before = panel.picture.clone();
    let mut wanted = Wanted::of(panel.state, &before);
    let mut done = 0;
    while done < wanted.count {
        let n = portion(random, wanted.count - done);
        let used = n.min(wanted.count - done);
        assert_eq!(panel.grant(n), used, "{:?} after {done} cycles", wanted.start);
        (done..done + used).for_each(|i| wanted.draw(i, &panel.table));
        done += used;
        assert_eq!(panel.state, wanted.state(done), "{:?} after {done} cycles", wanted.start);
        assert!(panel.picture == wanted.picture, "{:?} after {done} cycles", wanted.start);
    }
    panel.picture != before
}

/// All four ways, and of each a good part that shows.
fn every_way(card: &impl Card) {
    let mut random = Random::new(45);
    for way in 0..4 {
        let shown = (0..CHARACTERS).filter(|_| draws(card, &mut random, way)).count();
        assert!(shown > CHARACTERS / 4, "way {way}: {shown} characters changed the picture");
    }
}

/// A register's address and the byte written there; address 0 takes the commands, each run to its end.
type Item = (u8, u8);

/// A tilted character, and others, vectors and writes of registers about it.
fn list(random: &mut Random) -> Vec<Item> {
    let mut list: Vec<Item> = (0..random.among(1, 12)).map(|_| item(random)).collect();
    let place = random.below(list.len() as u64) as usize;
    let letter = [(2, random.byte() | TILT), (0, code(random))];
    list.splice(place..place, letter);
    list
}

fn item(random: &mut Random) -> Item {
    match random.below(12) {
        0..=3 => (0, code(random)),
        4 => (0, random.among(0x10, 0x1F) as u8),
        5 => (0, random.among(0x80, 0xFF) as u8),
        6 | 7 => (2, random.byte() | random.byte() & TILT),
        8 => (3, csize(random)),
        9 => (random.pick(&[5, 7]), delta(random)),
        10 => (random.pick(&[9, 11]), random.byte()),
        _ => (random.pick(&[8, 10]), random.pick(&[0, 0, 1, 255])),
    }
}

/// With the pen or the eraser down, from the same registers each time; the picture after it.
fn played(
    panel: &mut Panel<impl Card>,
    random: &mut Random,
    list: &[Item],
    pen: u8,
    before: &[u8],
) -> Vec<u8> {
    let start = panel.state;
    panel.picture.copy_from_slice(before);
    panel.write(1, start.ctrl1 & !PEN | DOWN | pen);
    for (address, value) in list {
        panel.write(*address, *value);
        while panel.state.modes & WORK != 0 {
            panel.grant(random.among(1, 20_000));
        }
    }
    panel.state = start;
    panel.picture.clone()
}

/// Whether the list writes a dot at all.
fn erases(card: &impl Card, random: &mut Random) -> bool {
    let mut panel = at_random(card, random);
    let (list, before) = (list(random), panel.picture.clone());
    let dark = vec![0; before.len()];
    let dots = played(&mut panel, random, &list, PEN, &dark);
    let drawn = played(&mut panel, random, &list, PEN, &before);
    let erased = played(&mut panel, random, &list, 0, &drawn);
    for i in 0..before.len() {
        assert_eq!(drawn[i], before[i] | dots[i], "drawn, byte {i}: {list:02X?} from {:?}", panel.state);
        assert_eq!(erased[i], before[i] & !dots[i], "erased, byte {i}: {list:02X?} from {:?}", panel.state);
    }
    dots != dark
}

fn every_list(card: &impl Card) {
    let mut random = Random::new(54);
    let shown = (0..LISTS).filter(|_| erases(card, &mut random)).count();
    assert!(shown > LISTS / 2, "{shown} lists wrote a dot");
}

#[test]
fn by_the_library() {
    every_way(&Library::reach());
}

#[test]
fn by_the_model() {
    every_way(&Model);
}

#[test]
fn lists_by_the_library() {
    every_list(&Library::reach());
}

#[test]
fn lists_by_the_model() {
    every_list(&Model);
}
