//! A picture back from plain PBM: comments are blanked first, then what follows P1 falls into words.

use crate::answer::PbmAnswer;
use crate::format::Format;
use crate::pbm_order::top_line_first;
use crate::picture::put_dot;
use crate::refusal::{self, ACCEPTED};

/// The value is 0. All dots are looked at before the first is put down (reading a.18).
pub fn pbm_read(format: Format, file: &[u8], picture: &mut [u8]) -> PbmAnswer {
    let file = PbmFile::of(file);
    let number = refusal::of_pbm_read(format, file.as_ref(), picture);
    if number != ACCEPTED {
        return PbmAnswer::refused(number);
    }
    let dots = file.as_ref().and_then(|file| file.dots(format)).expect("else refused with 10 or 12");
    for (place, dot) in top_line_first(format).zip(dots) {
        put_dot(format, picture, place, *dot == b'1');
    }
    PbmAnswer::accepted(0)
}

/// A file that has P1 and two whole numbers after it.
pub struct PbmFile {
    /// Digits, at least one, as many as there are.
    width: Vec<u8>,
    height: Vec<u8>,
    /// All that follows the height, less white space and comments: nothing but dots, up to the last.
    rest: Vec<u8>,
}

impl PbmFile {
    /// P1 stands first of all (reading a.3).
    pub fn of(file: &[u8]) -> Option<PbmFile> {
        let text = comments_blanked(file.strip_prefix(b"P1")?);
        if !starts_with_white_space(&text) {
            return None;
        }
        let mut words = text.split(is_white_space).filter(|word| !word.is_empty());
        let width = words.next()?;
        let (height, stuck) = digits_and_rest(words.next()?);
        if !is_whole_number(width) || !is_whole_number(height) {
            return None;
        }
        let mut rest = stuck.to_vec();
        rest.extend(words.flatten());
        Some(PbmFile { width: width.to_vec(), height: height.to_vec(), rest })
    }

    pub fn has_size_of(&self, format: Format) -> bool {
        is_value(&self.width, format.width()) && is_value(&self.height, format.height())
    }

    /// None when one is bad or missing. What follows the last is ignored (reading a.17).
    pub fn dots(&self, format: Format) -> Option<&[u8]> {
        let dots = self.rest.get(..format.dots())?;
        dots.iter().all(is_dot).then_some(dots)
    }
}

/// In each line a blank for every byte from its first # on; the line feed ends the comment, as does
/// the end of the file, but no CR (reading a.13). A comment may stand between dots (reading a.14).
fn comments_blanked(text: &[u8]) -> Vec<u8> {
    let mut blanked = text.to_vec();
    for line in blanked.split_mut(|byte| *byte == b'\n') {
        let comment = line.iter().position(|byte| *byte == b'#').unwrap_or(line.len());
        line[comment..].fill(b' ');
    }
    blanked
}

/// Some is wanted after P1 (reading a.5); a comment, blank by now, will do (reading a.4).
fn starts_with_white_space(text: &[u8]) -> bool {
    text.first().is_some_and(is_white_space)
}

/// These four and no other (reading a.15).
fn is_white_space(byte: &u8) -> bool {
    matches!(byte, b' ' | b'\t' | b'\r' | b'\n')
}

/// The height's digits run as far as they go; what is stuck to them stands before the last dot, and
/// is no dot (reading a.10).
fn digits_and_rest(word: &[u8]) -> (&[u8], &[u8]) {
    let digits = word.iter().take_while(|byte| byte.is_ascii_digit()).count();
    word.split_at(digits)
}

/// Digits only, no sign (reading a.6). The width is a whole word: only white space or a comment parts
/// it from the height (reading a.11).
fn is_whole_number(word: &[u8]) -> bool {
    !word.is_empty() && word.iter().all(u8::is_ascii_digit)
}

/// Leading zeros do not count (reading a.7); compared as text, a number of any length is itself
/// (reading a.8). No format is 0 wide or high.
fn is_value(digits: &[u8], value: u16) -> bool {
    digits.iter().skip_while(|digit| **digit == b'0').eq(value.to_string().as_bytes())
}

fn is_dot(byte: &u8) -> bool {
    matches!(byte, b'0' | b'1')
}
