//! Characters: whole and in the window they are painted by rows, else they step cell by cell without a division.

use super::{Tuned, DOWN, PEN, TILT, TURNED, TWELVE_BITS};

#[derive(Clone)]
pub struct CharacterRun {
    code: u8,
    p: u16,
    q: u16,
    columns: u16,
    rows: u16,
    /// The cell of the next cycle, and how far into it.
    column: u16,
    in_column: u16,
    row: u16,
    in_row: u16,
}

impl CharacterRun {
    pub fn new(card: &Tuned, code: u8) -> CharacterRun {
        let size = |half: u8| if half == 0 { 16 } else { u16::from(half) };
        let (columns, rows) = if code == 0x0B { (4, 4) } else { (6, 8) };
        CharacterRun {
            code,
            p: size(card.csize >> 4),
            q: size(card.csize & 0x0F),
            columns,
            rows,
            column: 0,
            in_column: 0,
            row: 0,
            in_row: 0,
        }
    }

    pub fn is_over(&self) -> bool {
        self.column == self.columns
    }

    pub fn granted(&mut self, card: &mut Tuned, n: u16, picture: &mut [u8], table: &[u8; 480]) -> u16 {
        let count = self.columns * self.p * self.rows * self.q;
        if n >= count && self.can_go_whole(card) {
            self.whole(card, picture, table);
            return count;
        }
        let mut used = 0;
        while used < n && !self.is_over() {
            used += self.run(card, n - used, picture, table);
        }
        used
    }

    fn can_go_whole(&self, card: &Tuned) -> bool {
        let at_start = self.column | self.in_column | self.row | self.in_row == 0;
        let lean = if card.ctrl2 & TILT != 0 { self.rows * self.q - 1 } else { 0 };
        let inside =
            card.x + self.columns * self.p + lean <= card.width && card.y + self.rows * self.q <= card.height;
        at_start && inside && card.ctrl1 & DOWN != 0 && card.ctrl2 & TURNED == 0
    }

    /// Each row of cells is one pattern of bits, painted on Q lines; tilted, each line one dot further.
    fn whole(&mut self, card: &mut Tuned, picture: &mut [u8], table: &[u8; 480]) {
        let rows = self.rows_of_cells(table);
        let lean = u16::from(card.ctrl2 & TILT != 0);
        let (mut line, mut x) = (usize::from(card.y) << card.line_shift, card.x);
        for row in 0..self.rows {
            let bits = self.widened(rows >> (8 * row));
            for _ in 0..self.q {
                let at = line + usize::from(x >> 3);
                paint_line(picture, at, bits << (x & 7), card.ctrl1 & PEN != 0);
                line += 1 << card.line_shift;
                x += lean;
            }
        }
        card.x = (card.x + self.columns * self.p) & TWELVE_BITS;
        self.column = self.columns;
    }

    /// Byte r is row r from the bottom, its lowest bit the left column.
    fn rows_of_cells(&self, table: &[u8; 480]) -> u64 {
        match self.code {
            0x0A => 0x1F1F_1F1F_1F1F_1F1F,
            0x0B => 0x0F0F_0F0F,
            code => {
                let start = 5 * usize::from(code - 0x20);
                let mut columns = [0; 8];
                columns[..5].copy_from_slice(&table[start..start + 5]);
                transposed(u64::from_le_bytes(columns))
            }
        }
    }

    fn widened(&self, row: u64) -> u128 {
        if self.p == 1 {
            return u128::from(row & 0x1F);
        }
        let cell = (1u128 << self.p) - 1;
        (0..5).filter(|column| row >> column & 1 == 1).map(|column| cell << (column * self.p)).sum()
    }

    /// The rest of one cell in one column of dots, as far as granted.
    fn run(&mut self, card: &mut Tuned, n: u16, picture: &mut [u8], table: &[u8; 480]) -> u16 {
        let dots = n.min(self.q - self.in_row);
        let lit = self.has_dot(table);
        for _ in 0..dots {
            if lit {
                card.dot(picture);
            }
            self.along(card);
        }
        dots
    }

    fn has_dot(&self, table: &[u8; 480]) -> bool {
        match self.code {
            0x0B => true,
            _ if self.column == 5 => false,
            0x0A => true,
            code => {
                let byte = table[5 * usize::from(code - 0x20) + usize::from(self.column)];
                byte >> self.row & 1 == 1
            }
        }
    }

    fn along(&mut self, card: &mut Tuned) {
        self.in_row += 1;
        if self.in_row < self.q {
            return place(card, 0, 1);
        }
        self.in_row = 0;
        self.row += 1;
        if self.row < self.rows {
            return place(card, 0, 1);
        }
        self.row = 0;
        place(card, 1, 1u16.wrapping_sub(self.rows * self.q));
        self.in_column += 1;
        if self.in_column == self.p {
            self.in_column = 0;
            self.column += 1;
        }
    }
}

/// By u along the writing and v across it; tilted, as far along as across besides.
fn place(card: &mut Tuned, u: u16, v: u16) {
    let along = if card.ctrl2 & TILT != 0 { u.wrapping_add(v) } else { u };
    let (x, y) = if card.ctrl2 & TURNED != 0 { (v.wrapping_neg(), along) } else { (along, v) };
    card.x = card.x.wrapping_add(x) & TWELVE_BITS;
    card.y = card.y.wrapping_add(y) & TWELVE_BITS;
}

/// As many bytes at once as the pattern may fill; near the end of the picture byte by byte.
fn paint_line(picture: &mut [u8], at: usize, bits: u128, pen: bool) {
    let rest = &mut picture[at..];
    if bits >> 16 == 0 && rest.len() >= 2 {
        let old = u16::from_le_bytes([rest[0], rest[1]]);
        let new = if pen { old | bits as u16 } else { old & !(bits as u16) };
        rest[..2].copy_from_slice(&new.to_le_bytes());
    } else if let Some(sixteen) = rest.first_chunk_mut::<16>() {
        let old = u128::from_le_bytes(*sixteen);
        *sixteen = if pen { old | bits } else { old & !bits }.to_le_bytes();
    } else {
        for (byte, new) in rest.iter_mut().zip(bits.to_le_bytes()) {
            *byte = if pen { *byte | new } else { *byte & !new };
        }
    }
}

/// Eight bytes of eight bits, rows for columns, by swapping ever larger blocks across the diagonal.
fn transposed(bits: u64) -> u64 {
    let swap = |bits: u64, shift: u32, mask: u64| {
        let unlike = (bits ^ bits >> shift) & mask;
        bits ^ unlike ^ unlike << shift
    };
    let bits = swap(bits, 7, 0x00AA_00AA_00AA_00AA);
    let bits = swap(bits, 14, 0x0000_CCCC_0000_CCCC);
    swap(bits, 28, 0x0000_0000_F0F0_F0F0)
}
