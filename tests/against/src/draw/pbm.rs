//! Calls that write and read PBM: formats and lengths, and files laid into the scene.

use super::arguments::{bytes, file_bytes, length, WrongLengths};
use super::damage::DAMAGES;
use super::single::Known;
use super::states::FORMATS;
use crate::call::Call;
use crate::convert::format_of;
use crate::random::Random;
use crate::scene::{Scene, LONGEST_FILE, LONGEST_PICTURE};
use second::Format;

const WRONG_PICTURES: WrongLengths = WrongLengths { percent: 30 };

/// The picture, and the buffer that is written, are as the scene has them.
pub fn call(random: &mut Random, scene: &mut Scene) -> (Call, Known) {
    if random.percent(30) {
        (write(random), Known::Nothing)
    } else {
        read(random, scene)
    }
}

fn write(random: &mut Random) -> Call {
    let number = format_number(random);
    let format = nearest(number);
    let picture = length(random, WRONG_PICTURES, bytes(format), LONGEST_PICTURE);
    Call::WritePbm { format: number, picture, buffer: buffer(random, file_bytes(format)) }
}

fn read(random: &mut Random, scene: &mut Scene) -> (Call, Known) {
    let number = format_number(random);
    let format = nearest(number);
    let damage = random.below(DAMAGES.len() as u64) as usize;
    let whole = file(format, &drawn(random, format));
    // Behind a file that is cut lies what was cut off, so that it shows if more is read than was lent.
    scene.file.lay(&whole);
    let file = DAMAGES[damage].2(random, whole);
    scene.file.lay(&file);
    let picture = length(random, WRONG_PICTURES, bytes(format), LONGEST_PICTURE);
    (Call::ReadPbm { format: number, file: file.len(), picture }, Known::File(damage))
}

/// Sometimes a number of no format.
fn format_number(random: &mut Random) -> u8 {
    match random.below(12) {
        0 => random.pick(&[3, 4, 5, 6, 7, 128, 255]),
        _ => random.below(3) as u8,
    }
}

/// A format to take lengths and files from, for a number of none.
fn nearest(number: u8) -> Format {
    format_of(number).unwrap_or(FORMATS[usize::from(number % 3)])
}

fn buffer(random: &mut Random, right: usize) -> usize {
    match random.below(8) {
        0 => right - 1,
        1 => right + 1,
        2 => 0,
        3 => random.pick(&FORMATS.map(file_bytes)),
        4 => random.below(LONGEST_FILE as u64 + 1) as usize,
        _ => right,
    }
}

/// A picture at random, dark or lit.
pub fn drawn(random: &mut Random, format: Format) -> Vec<u8> {
    let byte = random.pick(&[0x00, 0xFF]);
    let mut picture = vec![byte; bytes(format)];
    if random.percent(75) {
        random.fill(&mut picture);
    }
    picture
}

/// The file of a picture, as the model writes it.
pub fn file(format: Format, picture: &[u8]) -> Vec<u8> {
    let mut file = vec![0; file_bytes(format)];
    let answer = second::pbm_write(format, picture, &mut file);
    assert_eq!((answer.number, answer.value as usize), (0, file.len()));
    file
}
