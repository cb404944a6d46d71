//! Panel logs. Generated: mostly well-formed mixes, some with damaged lines, some of hostile bytes. And the stored ones.

use crate::random::Random;
use std::path::{Path, PathBuf};

const SEED: u64 = 9366;
const HEX: &[u8; 16] = b"0123456789ABCDEF";
/// What damage puts in: near misses of what a line may hold, and bytes no line may hold.
const HOSTILE: &[u8] = b"\t\t\n\r \0\x7f\x80\xffagGWRTVLP0129AF-+:/@";

/// So many logs, each with its name; PANEL_SEED tries others.
pub fn generated(logs: usize) -> impl Iterator<Item = (String, Vec<u8>)> {
    let seed =
        std::env::var("PANEL_SEED").map_or(SEED, |words| words.parse().expect("PANEL_SEED is a number"));
    let mut random = Random::new(seed);
    (0..logs).map(move |number| {
        let log = match number % 10 {
            0 => noise(&mut random, 400),
            1 => log(&mut random, 3000),
            _ => log(&mut random, 200),
        };
        (format!("log {number} of seed {seed}"), log)
    })
}

/// Where the logs lie that are stored.
pub fn stored() -> Vec<PathBuf> {
    let folders = ["../../examples", "../runs"].map(|name| Path::new(env!("CARGO_MANIFEST_DIR")).join(name));
    let entries = folders.iter().flat_map(|folder| std::fs::read_dir(folder).unwrap());
    let paths = entries.map(|entry| entry.unwrap().path());
    let logs: Vec<PathBuf> =
        paths.filter(|path| path.extension().is_some_and(|extension| extension == "log")).collect();
    assert_eq!(logs.len(), 13);
    logs
}

/// A log of up to `most` lines.
fn log(random: &mut Random, most: u64) -> Vec<u8> {
    let mut bytes = Vec::new();
    let lines = random.below(most + 1);
    let damage = [0, 0, 5, 40][random.below(4) as usize];
    for _ in 0..lines {
        let mut line = line(random);
        if random.percent(damage) {
            damaged(random, &mut line);
        }
        bytes.extend(line);
        bytes.push(b'\n');
    }
    if random.percent(20) {
        bytes.pop();
    }
    bytes
}

/// Bytes of no form at all.
fn noise(random: &mut Random, most: u64) -> Vec<u8> {
    (0..random.below(most + 1)).map(|_| HOSTILE[random.below(HOSTILE.len() as u64) as usize]).collect()
}

fn line(random: &mut Random) -> Vec<u8> {
    let text = match random.below(20) {
        0..=8 => return write(random),
        9..=10 => format!("R\t{:X}", random.below(16)),
        11..=16 => format!("T\t{}", cycles(random)),
        17..=18 => format!("V\t{}", random.below(2)),
        _ => format!("L\t{}\t{}", random.below(80), random.below(256)),
    };
    text.into_bytes()
}

/// Short runs leave commands unfinished, long ones end them.
fn cycles(random: &mut Random) -> u64 {
    let bound = [4, 300, 65_536][random.below(3) as usize];
    random.below(bound)
}

/// Vectors and characters are the common commands; the pen is mostly down.
fn write(random: &mut Random) -> Vec<u8> {
    let (address, value) = match random.below(10) {
        0..=2 => (0, random.among(0x10, 0x1F) as u8),
        3 => (0, random.among(0x80, 0xFF) as u8),
        4 => (0, random.among(0, 0x7F) as u8),
        5 => (1, random.byte() & 0xF8 | [3, 3, 3, 1][random.below(4) as usize]),
        6 => ([8, 10][random.below(2) as usize], random.among(0, 2) as u8),
        _ => (random.below(16) as u8, random.byte()),
    };
    let mut line = vec![b'W', b'\t', HEX[usize::from(address)], b'\t'];
    if value > 15 || random.flag() {
        line.push(HEX[usize::from(value >> 4)]);
    }
    line.push(HEX[usize::from(value & 15)]);
    line
}

/// One byte more, less or other.
fn damaged(random: &mut Random, line: &mut Vec<u8>) {
    let place = random.below(line.len() as u64) as usize;
    let hostile = HOSTILE[random.below(HOSTILE.len() as u64) as usize];
    match random.below(3) {
        0 => line.insert(place, hostile),
        1 => line[place] = hostile,
        _ => drop(line.remove(place)),
    }
}
