//! Plays the section "Readings to check" of document 01 and says of each what came out.
//! The exit status is 1 if any differs, or if a call on the way is refused.

use second::{address, cycles, fresh, lpck, read, set_vb, write, Answer, Format, State};
use std::process::{exit, ExitCode};

/// The reading in short words, what came out, what should.
type Reading = (&'static str, String, &'static str);

fn main() -> ExitCode {
    let mut readings = vec![fresh_status()];
    readings.extend(vectors());
    readings.extend(blocks());
    readings.extend(place_in_memory());
    readings.push(pen_edge());
    readings.extend(refusals());

    let mut differ = 0;
    for (words, came, should) in &readings {
        if came == should {
            println!("{words:<28}  {came:<50}  ok");
        } else {
            println!("{words:<28}  {came:<50}  DIFFERS (should be {should})");
            differ += 1;
        }
    }
    println!("{} readings, {differ} differ", readings.len());
    ExitCode::from(u8::from(differ > 0))
}

fn fresh_status() -> Reading {
    ("fresh card", format!("STATUS {:02X}", Card::fresh().read(0x0)), "STATUS 05")
}

fn vectors() -> [Reading; 10] {
    let rising = Card::at(0, 0).deltas(5, 2).draw(0x11);
    let falling = Card::at(10, 10).deltas(2, 1).draw(0x17);
    let point = Card::at(0, 0).deltas(0, 0).draw(0x11);
    let cyclic = |x, y| Card::at(x, y).write(0x1, 0x0B);
    let (around, around_cyclic) = (around_4096(Card::at(4095, 0)), around_4096(cyclic(4095, 0)));
    let (over, over_cyclic) = (over_the_top(Card::at(0, 254)), over_the_top(cyclic(0, 254)));
    let short = Card::at(0, 0).draw(0xE9);
    let dotted = Card::at(0, 0).write(0x2, 1).deltas(5, 0).draw(0x10);
    let larger = Card::at(0, 0).deltas(3, 1).draw(0x19);
    let dots_and_cycles = format!("dots {}, cycles {}", point.drawn.len(), point.used);
    let dots_and_end = format!("dots {}, ends ({},{})", larger.drawn.len(), larger.x(), larger.y());
    [
        ("DELTAX 5, DELTAY 2, 11", rising.dots(), "(0,0) (1,0) (2,1) (3,1) (4,2) (5,2)"),
        ("2 and 1, 17 from (10,10)", falling.dots(), "(10,10) (9,9) (8,9)"),
        ("both deltas 0, 11", dots_and_cycles, "dots 1, cycles 1"),
        ("X 4095, DELTAX 2, 10", around, "(0,0) (1,0), cycles 3, X ends 1"),
        ("the same, cyclic", around_cyclic, "(511,0) (0,0) (1,0), cycles 3, X ends 1"),
        ("Y 254, DELTAY 3, 12", over, "(0,254) (0,255), Y ends 257, STATUS 0D"),
        ("the same, cyclic", over_cyclic, "(0,254) (0,255) (0,0) (0,1), Y ends 257, STATUS 0D"),
        ("E9", short.dots(), "(0,0) (1,0) (2,1) (3,1)"),
        ("line type 1, DELTAX 5, 10", dotted.dots(), "(0,0) (1,0) (4,0) (5,0)"),
        ("DELTAX 3, DELTAY 1, 19", dots_and_end, "dots 4, ends (3,3)"),
    ]
}

fn around_4096(card: Card) -> String {
    let card = card.deltas(2, 0).draw(0x10);
    format!("{}, cycles {}, X ends {}", card.dots(), card.used, card.x())
}

fn over_the_top(card: Card) -> String {
    let mut card = card.deltas(0, 3).draw(0x12);
    format!("{}, Y ends {}, STATUS {:02X}", card.dots(), card.y(), card.read(0x0))
}

fn blocks() -> [Reading; 2] {
    let largest = Card::at(0, 0).write(0x3, 0x00).draw(0x0A);
    let cycles_and_end = format!("cycles {}, X grows by {}", largest.used, largest.x());
    let smallest = Card::at(0, 0).draw(0x0A);
    [
        ("CSIZE 00, 0A", cycles_and_end, "cycles 12288, X grows by 96"),
        ("CSIZE 11, 0A", format!("cycles {}", smallest.used), "cycles 48"),
    ]
}

fn place_in_memory() -> [Reading; 2] {
    let card = Card::at(300, 100).deltas(0, 0).draw(0x11);
    let outputs = address(&card.state);
    let lines = format!("{}, {}, MSL {}", outputs.ck_low, outputs.ck_high, outputs.msl);
    let bits = lit(&card.picture).map(|(byte, bit)| format!("byte {byte} bit {bit}"));
    [
        ("address of (300,100)", lines, "41, 38, MSL 12"),
        ("dot (300,100) in the picture", bits.collect::<Vec<_>>().join(" "), "byte 6437 bit 4"),
    ]
}

fn pen_edge() -> Reading {
    let mut card = Card::at(0, 0).write(0x0, 0x08).vb(true).vb(false).edge(10, 20);
    ("pen edge at h 10, v 20", format!("XLP {}, then {}", card.read(0xC), card.read(0xC)), "XLP 41, then 40")
}

fn refusals() -> [Reading; 2] {
    let busy = Card::at(0, 0).write(0x0, 0x11).state;
    let busy_and_tilted = Card::at(0, 0).write(0x2, 4).write(0x0, 0x11).state;
    let refused =
        |state: &State, address, value| format!("refused with {}", write(state, address, value).number);
    [
        ("write to C while busy", refused(&busy, 0xC, 0), "refused with 5"),
        ("41 while busy and tilted", refused(&busy_and_tilted, 0x0, 0x41), "refused with 6"),
    ]
}

/// An EF9366 with its picture, and what its last command drew in how many cycles.
struct Card {
    state: State,
    picture: Vec<u8>,
    drawn: Vec<(usize, usize)>,
    used: u16,
}

impl Card {
    fn fresh() -> Card {
        let picture = vec![0; Format::Ef9366.bytes()];
        Card { state: fresh(Format::Ef9366), picture, drawn: Vec::new(), used: 0 }
    }

    /// Pen down, as the readings have it.
    fn at(x: u16, y: u16) -> Card {
        let ([x_upper, x_lower], [y_upper, y_lower]) = (x.to_be_bytes(), y.to_be_bytes());
        let card = Card::fresh().write(0x1, 3).write(0x8, x_upper).write(0x9, x_lower);
        card.write(0xA, y_upper).write(0xB, y_lower)
    }

    fn take(&mut self, call: &str, answer: Answer) -> u16 {
        if answer.number != 0 {
            eprintln!("{call} was refused with {}, so the readings can't be played", answer.number);
            exit(1);
        }
        self.state = answer.state;
        answer.value
    }

    fn write(mut self, address: u8, value: u8) -> Card {
        self.take("a write", write(&self.state, address, value));
        self
    }

    fn read(&mut self, address: u8) -> u16 {
        self.take("a read", read(&self.state, address))
    }

    fn vb(mut self, level: bool) -> Card {
        let answer = set_vb(&self.state, level, &mut self.picture);
        self.take("a VB level", answer);
        self
    }

    fn edge(mut self, h: u16, v: u16) -> Card {
        self.take("an LPCK edge", lpck(&self.state, h, v));
        self
    }

    /// One cycle at a time, so that the dots are seen in the order they are written.
    fn draw(self, code: u8) -> Card {
        let mut card = self.write(0x0, code);
        loop {
            let before = card.picture.clone();
            let answer = cycles(&card.state, 1, &mut card.picture, &[0; 480]);
            if card.take("a cycle", answer) == 0 {
                return card;
            }
            card.used += 1;
            let changed: Vec<u8> = before.iter().zip(&card.picture).map(|(old, new)| old ^ new).collect();
            card.drawn.extend(lit(&changed).map(|(byte, bit)| (byte % 64 * 8 + bit, byte / 64)));
        }
    }

    fn deltas(self, x: u8, y: u8) -> Card {
        self.write(0x5, x).write(0x7, y)
    }

    fn x(&self) -> u16 {
        self.position(0x8, 0x9)
    }

    fn y(&self) -> u16 {
        self.position(0xA, 0xB)
    }

    fn position(&self, upper: u8, lower: u8) -> u16 {
        read(&self.state, upper).value << 8 | read(&self.state, lower).value
    }

    fn dots(&self) -> String {
        self.drawn.iter().map(|(x, y)| format!("({x},{y})")).collect::<Vec<_>>().join(" ")
    }
}

/// Byte and bit of every lit dot.
fn lit(picture: &[u8]) -> impl Iterator<Item = (usize, usize)> + '_ {
    let bits = (0..picture.len()).flat_map(|byte| (0..8).map(move |bit| (byte, bit)));
    bits.filter(|&(byte, bit)| picture[byte] >> bit & 1 == 1)
}
