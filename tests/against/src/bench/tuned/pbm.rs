//! Plain PBM by eight dots at a time: out by a table of what a byte spells, in by one 64-bit word for eight dots that
//! stand side by side. What is read goes into a picture of its own first, so that one pass is enough.

use second::Format;

/// The eight dots of each byte, the lowest bit first.
const SPELLED: [[u8; 8]; 256] = spelled();

const fn spelled() -> [[u8; 8]; 256] {
    let mut table = [[b'0'; 8]; 256];
    let mut byte = 0;
    while byte < 256 {
        let mut bit = 0;
        while bit < 8 {
            table[byte][bit] += (byte >> bit & 1) as u8;
            bit += 1;
        }
        byte += 1;
    }
    table
}

/// Bytes of picture in a line of the file, and bytes of that line.
const GROUP: usize = 8;
const LINE: usize = 8 * GROUP + 1;
const HEAD: usize = 11;
const LARGEST: usize = 32_768;

const fn head(format: Format) -> &'static [u8; HEAD] {
    match format {
        Format::Ef9366 => b"P1\n512 256\n",
        Format::Ef9365High => b"P1\n512 512\n",
        Format::Ef9365Low => b"P1\n256 256\n",
    }
}

/// The bytes written, or the refusal number.
#[inline(never)]
pub fn write_pbm(format: Format, picture: &[u8], buffer: &mut [u8]) -> Result<u32, u8> {
    if picture.len() != format.bytes() {
        return Err(2);
    }
    let length = HEAD + picture.len() / GROUP * LINE;
    let Some(file) = buffer.get_mut(..length) else {
        return Err(9);
    };
    let (start, lines) = file.split_at_mut(HEAD);
    start.copy_from_slice(head(format));
    let top_first = picture.chunks_exact(usize::from(format.width() / 8)).rev();
    let groups = top_first.flat_map(|line| line.chunks_exact(GROUP));
    for (line, group) in lines.chunks_exact_mut(LINE).zip(groups) {
        for (dots, byte) in line.chunks_exact_mut(8).zip(group) {
            dots.copy_from_slice(&SPELLED[usize::from(*byte)]);
        }
        line[LINE - 1] = b'\n';
    }
    Ok(length as u32)
}

/// The refusal number, or 0.
#[inline(never)]
pub fn read_pbm(format: Format, file: &[u8], picture: &mut [u8]) -> u8 {
    if picture.len() != format.bytes() {
        return 2;
    }
    let Some((width, height, mut rest)) = size(file) else {
        return 10;
    };
    if (width, height) != (u64::from(format.width()), u64::from(format.height())) {
        return 11;
    }
    let mut read = [0; LARGEST];
    let read = &mut read[..picture.len()];
    for line in read.chunks_exact_mut(usize::from(format.width() / 8)).rev() {
        for byte in line {
            let Some((eight, after)) = eight_dots(rest) else {
                return 12;
            };
            (*byte, rest) = (eight, after);
        }
    }
    picture.copy_from_slice(read);
    0
}

const ZEROS: u64 = u64::from_le_bytes([b'0'; 8]);
const LOWEST_BITS: u64 = u64::from_le_bytes([1; 8]);
/// Moves the lowest bit of byte k to bit 56 + k.
const GATHER: u64 = 0x0102_0408_1020_4080;

/// A line's end is met most often, and eight dots behind it.
#[inline(always)]
fn eight_dots(file: &[u8]) -> Option<(u8, &[u8])> {
    side_by_side(file).or_else(|| side_by_side(file.strip_prefix(b"\n")?)).or_else(|| parted(file))
}

#[inline(always)]
fn side_by_side(file: &[u8]) -> Option<(u8, &[u8])> {
    let (word, after) = file.split_first_chunk::<8>()?;
    let dots = u64::from_le_bytes(*word) ^ ZEROS;
    (dots & !LOWEST_BITS == 0).then_some(((dots.wrapping_mul(GATHER) >> 56) as u8, after))
}

/// White space or comments stand before or among the eight.
fn parted(mut file: &[u8]) -> Option<(u8, &[u8])> {
    let mut eight = 0;
    for bit in 0..8 {
        let (dot @ (b'0' | b'1'), after) = skipped(file).split_first()? else {
            return None;
        };
        eight |= (dot - b'0') << bit;
        file = after;
    }
    Some((eight, file))
}

fn skipped(mut file: &[u8]) -> &[u8] {
    loop {
        file = match file {
            [b' ' | b'\t' | b'\r' | b'\n', after @ ..] => after,
            [b'#', ..] => &file[file.iter().position(|byte| *byte == b'\n').unwrap_or(file.len())..],
            _ => return file,
        }
    }
}

/// Width, height and what follows them.
fn size(file: &[u8]) -> Option<(u64, u64, &[u8])> {
    let (width, rest) = number(file.strip_prefix(b"P1")?)?;
    let (height, rest) = number(rest)?;
    Some((width, height, rest))
}

fn number(file: &[u8]) -> Option<(u64, &[u8])> {
    let start = skipped(file);
    let count = start.iter().take_while(|byte| byte.is_ascii_digit()).count();
    let (digits, rest) = start.split_at(count);
    let value = digits
        .iter()
        .fold(0_u64, |sum, digit| sum.saturating_mul(10).saturating_add(u64::from(digit - b'0')));
    (start.len() < file.len() && count > 0).then_some((value, rest))
}
