//! A picture out as plain PBM: the whole file is made first, then laid into the lent buffer.

use crate::answer::PbmAnswer;
use crate::format::Format;
use crate::pbm_order::top_line_first;
use crate::picture::is_lit;
use crate::refusal::{self, ACCEPTED};

/// Whatever the width, so a line of the screen takes several (reading a.2).
const DOTS_IN_LINE: usize = 64;

/// The value is the bytes written; later bytes of the buffer stay (reading a.20).
pub fn pbm_write(format: Format, picture: &[u8], buffer: &mut [u8]) -> PbmAnswer {
    let number = refusal::of_pbm_write(format, picture, buffer);
    if number != ACCEPTED {
        return PbmAnswer::refused(number);
    }
    let file = file(format, picture);
    buffer[..file.len()].copy_from_slice(&file);
    PbmAnswer::accepted(file.len() as u32)
}

/// Each line of dots has its line feed.
pub fn file_bytes(format: Format) -> usize {
    head(format).len() + format.dots() + format.dots() / DOTS_IN_LINE
}

fn file(format: Format, picture: &[u8]) -> Vec<u8> {
    let lit = top_line_first(format).map(|place| is_lit(format, picture, place));
    let dots: Vec<u8> = lit.map(digit).collect();
    let mut file = head(format).into_bytes();
    for line in dots.chunks(DOTS_IN_LINE) {
        file.extend(line);
        file.push(b'\n');
    }
    file
}

/// Two lines: "each line ended by a line feed" holds for these too (reading a.1).
fn head(format: Format) -> String {
    format!("P1\n{} {}\n", format.width(), format.height())
}

fn digit(lit: bool) -> u8 {
    if lit {
        b'1'
    } else {
        b'0'
    }
}
