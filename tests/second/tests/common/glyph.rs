//! A glyph without symmetry, and where its dots are expected.

use super::{listed, Card};

/// A glyph without any symmetry. Top row first; five columns and the spacing.
pub const ART: [&str; 8] = [
    "####..", //
    "#.....", //
    "#.....", //
    "###...", //
    "#.....", //
    "#.....", //
    "#.....", //
    "#...#.", //
];

/// The same glyph as the table holds it.
pub const GLYPH: [u8; 5] = [0xFF, 0x90, 0x90, 0x80, 0x01];

pub fn with_glyph(card: &mut Card, code: u8) {
    let start = 5 * (usize::from(code) - 32);
    card.table[start..start + 5].copy_from_slice(&GLYPH);
}

/// Cells (column, row from the bottom) that have a dot.
pub fn cells(art: &[&str]) -> Vec<(u16, u16)> {
    let mut cells = Vec::new();
    for (down, line) in art.iter().enumerate() {
        for (column, cell) in line.chars().enumerate() {
            if cell == '#' {
                cells.push((column as u16, (art.len() - 1 - down) as u16));
            }
        }
    }
    cells
}

/// Each cell grown to P by Q dots, from (x, y) to the right and up.
pub fn upright(cells: &[(u16, u16)], p: u16, q: u16, x: u16, y: u16) -> Vec<(u16, u16)> {
    let mut dots = Vec::new();
    for &(column, row) in cells {
        for right in 0..p {
            for up in 0..q {
                dots.push((x + column * p + right, y + row * q + up));
            }
        }
    }
    listed(&dots)
}

/// The same after a quarter turn: writing goes up, rows go to the left.
pub fn turned(cells: &[(u16, u16)], p: u16, q: u16, x: u16, y: u16) -> Vec<(u16, u16)> {
    let mut dots = Vec::new();
    for &(column, row) in cells {
        for up in 0..p {
            for left in 0..q {
                dots.push((x - row * q - left, y + column * p + up));
            }
        }
    }
    listed(&dots)
}

/// Upright dots after the slant: each line as far to the right as it lies above the first, y.
pub fn tilted(upright: &[(u16, u16)], y: u16) -> Vec<(u16, u16)> {
    let dots: Vec<(u16, u16)> = upright.iter().map(|&(at, line)| (at + (line - y), line)).collect();
    listed(&dots)
}

/// Turned dots after the slant: each row as far up as it lies to the left of the first, x.
pub fn turned_tilted(turned: &[(u16, u16)], x: u16) -> Vec<(u16, u16)> {
    let dots: Vec<(u16, u16)> = turned.iter().map(|&(at, line)| (at, line + (x - at))).collect();
    listed(&dots)
}

/// The picture around (x, y) as text, top row first.
pub fn seen(card: &Card, x: u16, y: u16, width: u16, height: u16) -> Vec<String> {
    let lit = card.dots();
    let row = |y: u16| (x..x + width).map(|x| if lit.contains(&(x, y)) { '#' } else { '.' }).collect();
    (y..y + height).rev().map(row).collect()
}

pub const SIZES: [(u8, u16, u16); 7] =
    [(0x11, 1, 1), (0x12, 1, 2), (0x21, 2, 1), (0x23, 2, 3), (0x32, 3, 2), (0x01, 16, 1), (0x10, 1, 16)];
