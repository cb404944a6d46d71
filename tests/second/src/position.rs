//! X and Y are 12 bits wide and step around modulo 4,096.

pub const POSITIONS: u16 = 4096;

pub fn moved(from: u16, by: i32) -> u16 {
    (i32::from(from) + by).rem_euclid(i32::from(POSITIONS)) as u16
}
