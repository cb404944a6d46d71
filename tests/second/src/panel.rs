//! The panel text: records in, one a line, and what a fresh EF9366 makes of them out.

use crate::answer::Answer;
use crate::blanking::set_vb;
use crate::cycles::cycles;
use crate::format::Format;
use crate::light_pen::lpck;
use crate::picture::is_lit;
use crate::refusal::{ACCEPTED, TABLE_BYTES};
use crate::register::{read, write};
use crate::state::{fresh, State};

const MALFORMED: u8 = 20;
const MOST_INPUT: usize = 65_536;
const FORMAT: Format = Format::Ef9366;

/// One well-formed line.
enum Record {
    Write(u8, u8),
    Read(u8),
    Cycles(u16),
    Blanking(bool),
    Edge(u16, u16),
}

/// The whole output for the whole input.
pub fn panel(input: &[u8]) -> Vec<u8> {
    if input.len() > MOST_INPUT {
        return b"E\t0\t21\n".to_vec();
    }
    let mut output = String::from("G\t9366\n");
    let mut picture = vec![0; FORMAT.bytes()];
    let mut state = fresh(FORMAT);
    for (place, line) in lines(input).into_iter().enumerate() {
        let number = match record(line) {
            None => MALFORMED,
            Some(record) => play(&record, &mut state, &mut picture, &mut output),
        };
        if number != ACCEPTED {
            output.push_str(&format!("E\t{}\t{number}\n", place + 1));
        }
    }
    print_dots(&picture, &mut output);
    output.into_bytes()
}

/// A line feed at the very end ends the last line and adds none (reading 98).
fn lines(input: &[u8]) -> Vec<&[u8]> {
    if input.is_empty() {
        return Vec::new();
    }
    let text = input.strip_suffix(b"\n").unwrap_or(input);
    text.split(|byte| *byte == b'\n').collect()
}

/// None when the line is malformed.
fn record(line: &[u8]) -> Option<Record> {
    let fields: Vec<&[u8]> = line.split(|byte| *byte == b'\t').collect();
    match fields[..] {
        [b"W", address, value] => Some(Record::Write(hex(address, 1)?, hex(value, 2)?)),
        [b"R", address] => Some(Record::Read(hex(address, 1)?)),
        [b"T", n] => Some(Record::Cycles(decimal(n, 5, 65_535)?)),
        [b"V", b"0"] => Some(Record::Blanking(false)),
        [b"V", b"1"] => Some(Record::Blanking(true)),
        [b"L", h, v] => Some(Record::Edge(decimal(h, 3, 255)?, decimal(v, 3, 255)?)),
        _ => None,
    }
}

/// One to `most_digits` digits, at most two.
fn hex(field: &[u8], most_digits: usize) -> Option<u8> {
    if field.is_empty() || field.len() > most_digits {
        return None;
    }
    let mut value = 0;
    for byte in field {
        let digit = match byte {
            b'0'..=b'9' => byte - b'0',
            b'A'..=b'F' => byte - b'A' + 10,
            _ => return None,
        };
        value = value * 16 + digit;
    }
    Some(value)
}

/// One to `most_digits` digits, at most five; leading zeros count as digits (reading 89).
fn decimal(field: &[u8], most_digits: usize, greatest: u32) -> Option<u16> {
    if field.is_empty() || field.len() > most_digits {
        return None;
    }
    let mut value = 0;
    for byte in field {
        if !byte.is_ascii_digit() {
            return None;
        }
        value = value * 10 + u32::from(byte - b'0');
    }
    if value > greatest {
        return None;
    }
    u16::try_from(value).ok()
}

/// Only R and T print when accepted (reading 105); the number is 0 or the refusal.
fn play(record: &Record, state: &mut State, picture: &mut [u8], output: &mut String) -> u8 {
    let Answer { number, value, state: next } = match *record {
        Record::Write(address, value) => write(state, address, value),
        Record::Read(address) => read(state, address),
        Record::Cycles(n) => cycles(state, n, picture, &[0; TABLE_BYTES]),
        Record::Blanking(level) => set_vb(state, level, picture),
        Record::Edge(h, v) => lpck(state, h, v),
    };
    *state = next;
    if number == ACCEPTED {
        match record {
            Record::Read(address) => output.push_str(&format!("R\t{address:X}\t{value:02X}\n")),
            Record::Cycles(_) => output.push_str(&format!("T\t{value}\n")),
            Record::Write(..) | Record::Blanking(_) | Record::Edge(..) => {}
        }
    }
    number
}

fn print_dots(picture: &[u8], output: &mut String) {
    for y in 0..FORMAT.height() {
        for x in 0..FORMAT.width() {
            if is_lit(FORMAT, picture, (x, y)) {
                output.push_str(&format!("P\t{x}\t{y}\n"));
            }
        }
    }
}
