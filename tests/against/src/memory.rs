//! A memory as one word: its length and, where bytes are not 00, places with the bytes from there on. Bytes that come
//! again and again are told once.

/// Dots in a line of a PBM as it is written, and the line's end.
const LINE: usize = 65;
/// A byte that comes again fewer times is told as often as it comes.
const RUN: usize = 8;

pub fn spelled(memory: &[u8]) -> String {
    let entries: Vec<String> = stretches(memory).iter().map(|stretch| stretch.spelled(memory)).collect();
    let colon = if entries.is_empty() { "" } else { ":" };
    format!("{}{colon}{}", memory.len(), entries.join(","))
}

/// So many bytes from a place on, so many times on end.
struct Stretch {
    place: usize,
    size: usize,
    times: usize,
}

impl Stretch {
    fn spelled(&self, memory: &[u8]) -> String {
        let bytes = &memory[self.place..self.place + self.size];
        let bytes: String = bytes.iter().map(|byte| format!("{byte:02X}")).collect();
        let times = if self.times > 1 { format!("*{}", self.times) } else { String::new() };
        format!("{}={bytes}{times}", self.place)
    }

    fn goes_on_at(&self, place: usize) -> bool {
        self.times == 1 && self.place + self.size == place
    }
}

/// All that is not 00.
fn stretches(memory: &[u8]) -> Vec<Stretch> {
    let mut all: Vec<Stretch> = Vec::new();
    let mut place = 0;
    while place < memory.len() {
        let (size, times) = group(&memory[place..]);
        match all.last_mut() {
            Some(last) if last.goes_on_at(place) && times == 1 => last.size += 1,
            _ if memory[place] == 0 && size == 1 => {}
            _ => all.push(Stretch { place, size, times }),
        }
        place += size * times;
    }
    all
}

/// How long the group of bytes at the start is and how often it stands there: a line, a byte in a run, or one byte.
fn group(bytes: &[u8]) -> (usize, usize) {
    let times = |size: usize| {
        let first = &bytes[..size.min(bytes.len())];
        bytes.chunks_exact(size).take_while(|group| *group == first).count()
    };
    let (lines, run) = (times(LINE), times(1));
    if lines > 1 && lines * LINE > run {
        (LINE, lines)
    } else if run >= RUN || bytes[0] == 0 {
        (1, run)
    } else {
        (1, 1)
    }
}

pub fn memory(text: &str, longest: usize) -> Result<Vec<u8>, String> {
    let (length, entries) = text.split_once(':').unwrap_or((text, ""));
    let length: usize = number(length)?;
    if length > longest {
        return Err(format!("A memory of {length} bytes is longer than {longest}, the longest lent here."));
    }
    let mut memory = vec![0; length];
    for entry in entries.split(',').filter(|entry| !entry.is_empty()) {
        put(&mut memory, entry)?;
    }
    Ok(memory)
}

/// PLACE=BYTES or PLACE=BYTES*TIMES.
fn put(memory: &mut [u8], entry: &str) -> Result<(), String> {
    let (place, bytes) = entry.split_once('=').ok_or_else(|| format!("'{entry}' is no PLACE=BYTES."))?;
    let place: usize = number(place)?;
    let (bytes, times) = bytes.split_once('*').unwrap_or((bytes, "1"));
    let (group, times) = (bytes_of(bytes)?, number::<usize>(times)?);
    let room = memory.get_mut(place..).unwrap_or_default();
    if times > room.len() / group.len() {
        return Err(format!("'{entry}' does not end within its memory."));
    }
    room.chunks_exact_mut(group.len()).take(times).for_each(|part| part.copy_from_slice(&group));
    Ok(())
}

fn bytes_of(text: &str) -> Result<Vec<u8>, String> {
    if text.is_empty() || text.len() % 2 != 0 || !text.is_ascii() {
        return Err(format!("'{text}' is not bytes in hex, two digits each."));
    }
    (0..text.len()).step_by(2).map(|place| byte(&text[place..place + 2])).collect()
}

pub fn byte(text: &str) -> Result<u8, String> {
    u8::from_str_radix(text, 16).map_err(|_| format!("'{text}' is not a byte in hex."))
}

pub fn number<T: std::str::FromStr>(text: &str) -> Result<T, String> {
    text.parse().map_err(|_| format!("'{text}' is not a number, or too large for its place."))
}

#[cfg(test)]
mod tests {
    use super::{memory, spelled};

    #[test]
    fn there_and_back() {
        let line = [&[b'0'; 64][..], b"\n"].concat();
        let file = [&b"P1\n256 256\n"[..], &line.repeat(1_024)].concat();
        let zeros_within = [&[0, 0, 7, 8, 0, 9][..], &[3; 8], &[0; 100], &[4; 7]].concat();
        for (bytes, word) in [
            (vec![0; 480], "480"),
            (zeros_within, "121:2=07080009,6=03*8,114=04040404040404"),
            (vec![0xFF; 16_384], "16384:0=FF*16384"),
            (file, &format!("66571:0=50310A32353620323536,10=0A{}*1024,66570=0A", "30".repeat(64))),
            (Vec::new(), "0"),
        ] {
            assert_eq!(spelled(&bytes), word);
            assert!(memory(word, 100_000) == Ok(bytes));
        }
    }
}
