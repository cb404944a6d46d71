//! Plain PBM as it is said: dot after dot out, and in by two passes, so that a refusal leaves the picture.

use super::window::Place;
use second::Format;

const DOTS_IN_LINE: u16 = 64;

/// The bytes written, or the refusal number.
#[inline(never)]
pub fn write_pbm(format: Format, picture: &[u8], buffer: &mut [u8]) -> Result<u32, u8> {
    if picture.len() != format.bytes() {
        return Err(2);
    }
    let head = format!("P1\n{} {}\n", format.width(), format.height());
    let length = head.len() + format.dots() + format.dots() / usize::from(DOTS_IN_LINE);
    if buffer.len() < length {
        return Err(9);
    }
    buffer[..head.len()].copy_from_slice(head.as_bytes());
    let mut at = head.len();
    for y in (0..format.height()).rev() {
        for x in 0..format.width() {
            buffer[at] = if is_lit(format, picture, Place { x, y }) { b'1' } else { b'0' };
            at += 1;
            if x % DOTS_IN_LINE == DOTS_IN_LINE - 1 {
                buffer[at] = b'\n';
                at += 1;
            }
        }
    }
    Ok(at as u32)
}

/// The refusal number, or 0.
#[inline(never)]
pub fn read_pbm(format: Format, file: &[u8], picture: &mut [u8]) -> u8 {
    if picture.len() != format.bytes() {
        return 2;
    }
    let mut text = Text { file, at: 0 };
    let Some((width, height)) = text.size() else {
        return 10;
    };
    if (width, height) != (u64::from(format.width()), u64::from(format.height())) {
        return 11;
    }
    let first_dot = text.at;
    for _ in 0..format.dots() {
        if text.dot().is_none() {
            return 12;
        }
    }
    text.at = first_dot;
    for y in (0..format.height()).rev() {
        for x in 0..format.width() {
            put(format, picture, Place { x, y }, text.dot() == Some(b'1'));
        }
    }
    0
}

fn byte_of(format: Format, place: Place) -> usize {
    usize::from(place.y) * usize::from(format.width() / 8) + usize::from(place.x / 8)
}

fn is_lit(format: Format, picture: &[u8], place: Place) -> bool {
    picture[byte_of(format, place)] & 1 << (place.x % 8) != 0
}

fn put(format: Format, picture: &mut [u8], place: Place, lit: bool) {
    let byte = &mut picture[byte_of(format, place)];
    let bit = 1 << (place.x % 8);
    if lit {
        *byte |= bit;
    } else {
        *byte &= !bit;
    }
}

/// A file, and how far it has been read.
struct Text<'a> {
    file: &'a [u8],
    at: usize,
}

impl Text<'_> {
    /// Width and height, where P1 and two numbers come first.
    fn size(&mut self) -> Option<(u64, u64)> {
        if !self.file.starts_with(b"P1") {
            return None;
        }
        self.at = 2;
        let width = self.number()?;
        let height = self.number()?;
        Some((width, height))
    }

    /// White space and digits; a number too large for 64 bits stays the largest.
    fn number(&mut self) -> Option<u64> {
        let (before, mut value) = (self.at, 0_u64);
        let start = self.skip_white_space();
        while let Some(digit @ b'0'..=b'9') = self.file.get(self.at) {
            value = value.saturating_mul(10).saturating_add(u64::from(digit - b'0'));
            self.at += 1;
        }
        (before < start && start < self.at).then_some(value)
    }

    fn dot(&mut self) -> Option<u8> {
        self.skip_white_space();
        let dot = self.file.get(self.at).copied().filter(|byte| matches!(byte, b'0' | b'1'));
        self.at += 1;
        dot
    }

    /// Comments too. How far it has come.
    fn skip_white_space(&mut self) -> usize {
        while let Some(byte) = self.file.get(self.at) {
            match byte {
                b' ' | b'\t' | b'\r' | b'\n' => self.at += 1,
                b'#' => self.skip_comment(),
                _ => break,
            }
        }
        self.at
    }

    fn skip_comment(&mut self) {
        while self.file.get(self.at).is_some_and(|byte| *byte != b'\n') {
            self.at += 1;
        }
    }
}
