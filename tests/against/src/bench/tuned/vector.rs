//! Vectors by their error term: 2 × i × m + M, less 2 × M for each step across.

use super::{Tuned, DOWN, PEN, TWELVE_BITS};

#[derive(Clone)]
pub struct VectorRun {
    /// Dots still to come.
    left: u16,
    error: u16,
    longer: u16,
    shorter: u16,
    x_is_longer: bool,
    /// 1, or 4,095 to step back.
    x_step: u16,
    y_step: u16,
    /// The line type, its next dot lowest; every period divides sixteen.
    pattern: u16,
}

const PATTERNS: [u16; 4] = [0xFFFF, 0x3333, 0x0F0F, 0x33FF];
const BACK: u16 = TWELVE_BITS;
/// Below this many dots the set-up of the fast loop costs more than it saves.
const WORTH: u16 = 6;

impl VectorRun {
    pub fn new(card: &Tuned, code: u8) -> VectorRun {
        let (mut x, mut y) = match code {
            0x80.. => (u16::from(code >> 5 & 3), u16::from(code >> 3 & 3)),
            0x18.. => {
                let larger = u16::from(card.deltax.max(card.deltay));
                (larger, larger)
            }
            _ => (u16::from(card.deltax), u16::from(card.deltay)),
        };
        match code & 7 {
            0 | 6 => y = 0,
            2 | 4 => x = 0,
            _ => {}
        }
        let (longer, shorter) = (x.max(y), x.min(y));
        VectorRun {
            left: longer + 1,
            error: longer,
            longer,
            shorter,
            x_is_longer: x >= y,
            x_step: if matches!(code & 7, 3 | 6 | 7) { BACK } else { 1 },
            y_step: if matches!(code & 7, 4 | 5 | 7) { BACK } else { 1 },
            pattern: PATTERNS[usize::from(card.ctrl2 & 3)],
        }
    }

    pub fn is_over(&self) -> bool {
        self.left == 0
    }

    pub fn granted(&mut self, card: &mut Tuned, n: u16, picture: &mut [u8]) -> u16 {
        let used = n.min(self.left);
        if used >= WORTH && card.ctrl1 & DOWN != 0 && self.stays_inside(card) {
            self.inside(card, used, picture);
        } else {
            self.anywhere(card, used, picture);
        }
        used
    }

    /// The furthest the rest can reach still lies in the window.
    fn stays_inside(&self, card: &Tuned) -> bool {
        let (x_reach, y_reach) = if self.x_is_longer {
            (self.left - 1, self.shorter.min(self.left))
        } else {
            (self.shorter.min(self.left), self.left - 1)
        };
        fits(card.x, x_reach, self.x_step, card.width) && fits(card.y, y_reach, self.y_step, card.height)
    }

    fn anywhere(&mut self, card: &mut Tuned, used: u16, picture: &mut [u8]) {
        for _ in 0..used {
            if self.pattern & 1 != 0 {
                card.dot(picture);
            }
            self.pattern = self.pattern.rotate_right(1);
            self.left -= 1;
            if self.left > 0 {
                self.step(card);
            }
        }
    }

    fn step(&mut self, card: &mut Tuned) {
        self.error += 2 * self.shorter;
        let across = self.error >= 2 * self.longer;
        if across {
            self.error -= 2 * self.longer;
        }
        if self.x_is_longer || across {
            card.x = (card.x + self.x_step) & TWELVE_BITS;
        }
        if !self.x_is_longer || across {
            card.y = (card.y + self.y_step) & TWELVE_BITS;
        }
    }

    /// No clipping: the dot's number in the picture is stepped, and X and Y are read off it at the end.
    fn inside(&mut self, card: &mut Tuned, used: u16, picture: &mut [u8]) {
        if card.ctrl1 & PEN != 0 {
            self.swift::<true>(card, used, picture);
        } else {
            self.swift::<false>(card, used, picture);
        }
    }

    fn swift<const LIGHT: bool>(&mut self, card: &mut Tuned, used: u16, picture: &mut [u8]) {
        let line = usize::from(card.width);
        let beside = if self.x_step == 1 { 1 } else { 1usize.wrapping_neg() };
        let above = if self.y_step == 1 { line } else { line.wrapping_neg() };
        let (straight, across) = if self.x_is_longer { (beside, above) } else { (above, beside) };
        let slanted = straight.wrapping_add(across);
        let (twice_shorter, twice_longer) = (2 * i32::from(self.shorter), 2 * i32::from(self.longer));
        let mut dot = usize::from(card.y) * line + usize::from(card.x);
        // Less 2 × M, so that the sign tells when to step across.
        let mut error = i32::from(self.error) - twice_longer;
        // Twice in a word, so that it rotates as one.
        let mut pattern = u32::from(self.pattern) * 0x1_0001;
        // The last dot of the vector is not stepped away from.
        let ends = used == self.left;
        for _ in 0..used - u16::from(ends) {
            paint::<LIGHT>(picture, dot, pattern);
            pattern = pattern.rotate_right(1);
            error += twice_shorter;
            dot = dot.wrapping_add(if error < 0 { straight } else { slanted });
            error -= if error < 0 { 0 } else { twice_longer };
        }
        if ends {
            paint::<LIGHT>(picture, dot, pattern);
            pattern = pattern.rotate_right(1);
        }
        (self.error, self.pattern) = ((error + twice_longer) as u16, pattern as u16);
        self.left -= used;
        (card.x, card.y) = ((dot % line) as u16, (dot / line) as u16);
    }
}

fn fits(from: u16, reach: u16, step: u16, bound: u16) -> bool {
    if step == BACK {
        from < bound && from >= reach
    } else {
        from + reach < bound
    }
}

/// An off dot paints with an empty mask: no branch to foretell.
#[inline(always)]
fn paint<const LIGHT: bool>(picture: &mut [u8], dot: usize, pattern: u32) {
    let mask = ((pattern & 1) << (dot & 7)) as u8;
    debug_assert!(dot / 8 < picture.len());
    // SAFETY: `stays_inside` held for the whole rest of the vector, so every dot lies in the picture, whose
    // length `grant` has checked.
    let byte = unsafe { picture.get_unchecked_mut(dot / 8) };
    *byte = if LIGHT { *byte | mask } else { *byte & !mask };
}
