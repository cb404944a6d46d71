//! The character generator: glyphs, the 5 × 8 block 0A and the 4 × 4 block 0B.

use crate::state::{State, CTRL2_TILT, CTRL2_TURNED};

/// One character or block at its size.
pub struct Character {
    code: u8,
    /// Width of a cell, along the writing direction.
    p: u16,
    /// Height of a cell.
    q: u16,
    tilted: bool,
    turned: bool,
}

/// Columns of a character that can hold dots; the sixth is its spacing.
const GLYPH_COLUMNS: u16 = 5;

fn is_character(code: u8) -> bool {
    matches!(code, 0x0A | 0x0B | 0x20..=0x7F)
}

impl Character {
    pub fn of(state: &State, code: u8) -> Option<Character> {
        if !is_character(code) {
            return None;
        }
        Some(Character {
            code,
            p: size(state.csize >> 4),
            q: size(state.csize & 0x0F),
            tilted: state.ctrl2_has(CTRL2_TILT),
            turned: state.ctrl2_has(CTRL2_TURNED),
        })
    }

    /// u runs below this.
    fn breadth(&self) -> u16 {
        let columns = if self.code == 0x0B { 4 } else { GLYPH_COLUMNS + 1 };
        columns * self.p
    }

    /// v runs below this.
    fn rise(&self) -> u16 {
        let rows = if self.code == 0x0B { 4 } else { 8 };
        rows * self.q
    }

    pub fn count(&self) -> u16 {
        self.breadth() * self.rise()
    }

    /// From the place at acceptance to the place of cycle i.
    pub fn offset(&self, i: u16) -> (i32, i32) {
        self.along_writing(i / self.rise(), i % self.rise())
    }

    /// On to where the next character begins: on the first line, so tilt does nothing to it (reading c.4).
    pub fn end(&self) -> (i32, i32) {
        self.along_writing(self.breadth(), 0)
    }

    /// Lines are counted after scaling: tilted, every single one goes one further in the direction of
    /// writing, so a cell of Q lines is slanted itself (reading c.1).
    fn along_writing(&self, u: u16, v: u16) -> (i32, i32) {
        let (u, v) = (i32::from(u), i32::from(v));
        let along = if self.tilted { u + v } else { u };
        if self.turned {
            (-v, along)
        } else {
            (along, v)
        }
    }

    pub fn has_dot(&self, i: u16, table: &[u8]) -> bool {
        let column = i / self.rise() / self.p;
        let row = i % self.rise() / self.q;
        match self.code {
            0x0B => true,
            0x0A => column < GLYPH_COLUMNS,
            _ => column < GLYPH_COLUMNS && glyph_has(glyph(table, self.code), column, row),
        }
    }
}

fn size(half: u8) -> u16 {
    if half == 0 {
        16
    } else {
        u16::from(half)
    }
}

/// The five bytes of a glyph, the left column first.
fn glyph(table: &[u8], code: u8) -> &[u8] {
    let start = usize::from(GLYPH_COLUMNS) * usize::from(code - 0x20);
    &table[start..start + usize::from(GLYPH_COLUMNS)]
}

/// Bit 0 is the bottom row.
fn glyph_has(glyph: &[u8], column: u16, row: u16) -> bool {
    glyph[usize::from(column)] >> row & 1 == 1
}
