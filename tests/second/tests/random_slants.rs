//! Parts of characters of all four ways, held against the formulas of documents 01 and 02.

mod common;

use common::random::Random;
use common::{cycle_count, listed, size, Card, FORMATS};

const RUNS: usize = 2_000;
const CYCLIC: u8 = 0x08;

/// A character that has just been accepted, over a dark picture.
struct Begun {
    card: Card,
    code: u8,
    p: u16,
    q: u16,
}

fn any_begun(random: &mut Random) -> Begun {
    let format = random.pick(&FORMATS);
    let (width, height) = size(format);
    let mut card = Card::at(format, any_position(width, random), any_position(height, random));
    card.table = random.bytes(480);
    let (p, q) = (1 + random.below(16) as u16, 1 + random.below(16) as u16);
    let code = random.pick(&[0x0A, 0x0B, 0x20, 0x46, 0x7F]);
    let ctrl1 = 3 | random.pick(&[0, CYCLIC]);
    // 16 is written as 0.
    let csize = (p % 16 * 16 + q % 16) as u8;
    card.write(1, ctrl1).write(2, random.below(16) as u8).write(3, csize).command(code);
    Begun { card, code, p, q }
}

/// On either side of 0 and of the end of the window, or in its middle.
fn any_position(window: usize, random: &mut Random) -> u16 {
    let around = random.pick(&[0, window as u64, window as u64 / 2]);
    ((around + 4096 + random.below(200) - 100) % 4096) as u16
}

impl Begun {
    fn rise(&self) -> u16 {
        if self.code == 0x0B {
            4 * self.q
        } else {
            8 * self.q
        }
    }

    /// Where cycle i falls.
    fn place(&self, i: u16) -> (u16, u16) {
        // 4,096 more, so that nothing falls below 0.
        let (x, y) = (self.card.state.x + 4096, self.card.state.y + 4096);
        let (u, v) = (i / self.rise(), i % self.rise());
        let (x, y) = match self.card.state.ctrl2 / 4 {
            0 => (x + u, y + v),
            1 => (x + u + v, y + v),
            2 => (x - v, y + u),
            _ => (x - v, y + u + v),
        };
        (x % 4096, y % 4096)
    }

    fn has_dot(&self, i: u16) -> bool {
        let (column, row) = (i / self.rise() / self.p, i % self.rise() / self.q);
        let glyph = |column: u16| self.card.table[5 * (usize::from(self.code) - 32) + usize::from(column)];
        match (self.code, column) {
            (0x0B, _) => true,
            (_, 5) => false,
            (0x0A, _) => true,
            _ => glyph(column) & (1 << row) != 0,
        }
    }

    /// What the first n cycles light.
    fn dots(&self, n: u16) -> Vec<(u16, u16)> {
        let (width, height) = size(self.card.state.format);
        let (width, height) = (width as u16, height as u16);
        let cyclic = self.card.state.ctrl1 & CYCLIC != 0;
        let places = (0..n).filter(|&i| self.has_dot(i)).map(|i| self.place(i));
        let written = places.filter(|&(x, y)| cyclic || x < width && y < height);
        listed(&written.map(|(x, y)| (x % width, y % height)).collect::<Vec<_>>())
    }
}

// readings c.1 to c.3: after any number of its cycles, in two grants
#[test]
fn any_part_of_any_character() {
    let mut random = Random(0x51A4_7ED5);
    let mut drawn = [0; 4];
    for _ in 0..RUNS {
        let begun = any_begun(&mut random);
        let state = begun.card.state;
        let count = cycle_count(&state, begun.code).expect("a command of write cycles");
        let n = random.below(u64::from(count)) as u16;
        let first = random.below(u64::from(n) + 1) as u16;
        let mut card = begun.card.clone();
        assert_eq!((card.grant(first), card.grant(n - first)), (first, n - first));
        assert_eq!(card.place(), begun.place(n), "{state:?} {n}");
        assert_eq!(card.dots(), begun.dots(n), "{state:?} {n}");
        drawn[usize::from(state.ctrl2 / 4)] += usize::from(!card.dots().is_empty());
    }
    assert!(drawn.iter().all(|&runs| runs > RUNS / 8), "{drawn:?}");
}

// reading c.4: the end of each is that of the straight one
#[test]
fn the_end_of_any_character() {
    let mut random = Random(0xE4D5_0FC0);
    for _ in 0..RUNS {
        let begun = any_begun(&mut random);
        let state = begun.card.state;
        let count = cycle_count(&state, begun.code).expect("a command of write cycles");
        let grown = if begun.code == 0x0B { 4 * begun.p } else { 6 * begun.p };
        let turned = state.ctrl2 >= 8;
        let mut card = begun.card.clone();
        assert_eq!(u32::from(card.grant(65_535)), count, "{state:?}");
        let end = if turned { (state.x, state.y + grown) } else { (state.x + grown, state.y) };
        assert_eq!(card.place(), (end.0 % 4096, end.1 % 4096), "{state:?}");
        assert_eq!(card.dots(), begun.dots(count as u16), "{state:?}");
    }
}
