//! Characters and blocks by counters: the cell of the next cycle, and how far into it that cycle lies.

use super::window::{Ink, Place};
use super::{Plain, TILT, TURNED};

#[derive(Clone)]
pub struct Character {
    code: u8,
    p: u16,
    q: u16,
    columns: u16,
    rows: u16,
    turned: bool,
    tilted: bool,
    column: u16,
    in_column: u16,
    row: u16,
    in_row: u16,
}

/// The sixth column is the spacing.
type Columns = [u8; 6];

impl Character {
    pub fn new(card: &Plain, code: u8) -> Character {
        let size = |half: u8| if half == 0 { 16 } else { u16::from(half) };
        let (columns, rows) = if code == 0x0B { (4, 4) } else { (6, 8) };
        Character {
            code,
            p: size(card.csize >> 4),
            q: size(card.csize & 15),
            columns,
            rows,
            turned: card.ctrl2 & TURNED != 0,
            tilted: card.ctrl2 & TILT != 0,
            column: 0,
            in_column: 0,
            row: 0,
            in_row: 0,
        }
    }

    /// The cycles used, and whether the last was among them.
    pub fn granted(&mut self, n: u16, place: &mut Place, ink: &mut Ink, table: &[u8]) -> (u16, bool) {
        let glyph = self.glyph(table);
        let mut used = 0;
        while used < n && self.column < self.columns {
            if glyph[usize::from(self.column)] >> self.row & 1 != 0 {
                ink.dot(*place);
            }
            self.step(place);
            used += 1;
        }
        (used, self.column == self.columns)
    }

    fn glyph(&self, table: &[u8]) -> Columns {
        let mut glyph = [0xFF, 0xFF, 0xFF, 0xFF, 0xFF, 0];
        if self.code >= 0x20 {
            let start = 5 * usize::from(self.code - 0x20);
            glyph[..5].copy_from_slice(&table[start..start + 5]);
        }
        glyph
    }

    fn step(&mut self, place: &mut Place) {
        self.in_row += 1;
        if self.in_row == self.q {
            self.in_row = 0;
            self.row += 1;
        }
        if self.row < self.rows {
            return self.advance(place, 0, 1);
        }
        self.row = 0;
        self.advance(place, 1, 1u16.wrapping_sub(self.rows * self.q));
        self.in_column += 1;
        if self.in_column == self.p {
            self.in_column = 0;
            self.column += 1;
        }
    }

    /// By u along the writing and v across it; tilted, as far along as across besides.
    fn advance(&self, place: &mut Place, u: u16, v: u16) {
        let along = if self.tilted { u.wrapping_add(v) } else { u };
        if self.turned {
            place.step(v.wrapping_neg(), along);
        } else {
            place.step(along, v);
        }
    }

    /// Cycles behind it.
    pub fn done(&self) -> u16 {
        (self.column * self.p + self.in_column) * self.rows * self.q + self.row * self.q + self.in_row
    }
}
