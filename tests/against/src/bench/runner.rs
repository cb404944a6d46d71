//! The contenders behind the same few calls; pictures in files are those of an EF9366. None of them is asked for what it
//! would refuse.

use super::morning::Draws;
use super::plain::{self, Plain};
use super::tuned::{self, Tuned};
use second::{Format, State};

pub trait Runner: Draws + Clone {
    /// A fresh card once VB has risen, which it has not yet in a fresh state.
    fn fresh(format: Format) -> Self;
    fn read(&mut self, address: u8) -> u16;
    /// DAD while CK is low, DAD while CK is high, and MSL.
    fn address(&self) -> [u8; 3];
    /// From the command to its end after so many frames, from VB high to VB high.
    fn clear(&mut self, frames: u8, picture: &mut [u8]);
    fn write_pbm(picture: &[u8], buffer: &mut [u8]);
    fn read_pbm(file: &[u8], picture: &mut [u8]);
}

/// The library, its state crossing by value both ways.
#[cfg(linked)]
#[derive(Clone)]
pub struct Ours(crate::flat::Flat);

#[cfg(linked)]
impl Draws for Ours {
    fn write(&mut self, address: u8, value: u8) {
        self.0 = crate::ffi::write(self.0, address, value).state;
    }

    fn grant(&mut self, n: u16, picture: &mut [u8], table: &[u8]) -> u16 {
        let answer = crate::ffi::grant(self.0, n, picture, table);
        self.0 = answer.state;
        answer.value
    }
}

#[cfg(linked)]
impl Runner for Ours {
    fn fresh(format: Format) -> Ours {
        let fresh = crate::ffi::fresh(crate::convert::format_number(format)).state;
        Ours(crate::ffi::set_vb(fresh, 1, &mut vec![0; format.bytes()]).state)
    }

    fn read(&mut self, address: u8) -> u16 {
        let answer = crate::ffi::read(self.0, address);
        self.0 = answer.state;
        answer.value
    }

    fn address(&self) -> [u8; 3] {
        let lines = crate::ffi::address(self.0);
        [lines.low, lines.high, lines.msl]
    }

    fn clear(&mut self, frames: u8, picture: &mut [u8]) {
        self.write(0, 0x04);
        for _ in 0..frames {
            self.0 = crate::ffi::set_vb(self.0, 0, picture).state;
            self.0 = crate::ffi::set_vb(self.0, 1, picture).state;
        }
    }

    fn write_pbm(picture: &[u8], buffer: &mut [u8]) {
        crate::ffi::write_pbm(0, picture, buffer);
    }

    fn read_pbm(file: &[u8], picture: &mut [u8]) {
        crate::ffi::read_pbm(0, file, picture);
    }
}

/// The model, which finds each cycle by the closed formulas.
#[derive(Clone)]
pub struct Formulas(State);

impl Draws for Formulas {
    fn write(&mut self, address: u8, value: u8) {
        self.0 = second::write(&self.0, address, value).state;
    }

    fn grant(&mut self, n: u16, picture: &mut [u8], table: &[u8]) -> u16 {
        let answer = second::cycles(&self.0, n, picture, table);
        self.0 = answer.state;
        answer.value
    }
}

impl Runner for Formulas {
    fn fresh(format: Format) -> Formulas {
        Formulas(second::set_vb(&second::fresh(format), true, &mut vec![0; format.bytes()]).state)
    }

    fn read(&mut self, address: u8) -> u16 {
        let answer = second::read(&self.0, address);
        self.0 = answer.state;
        answer.value
    }

    fn address(&self) -> [u8; 3] {
        crate::model::outputs(&self.0)
    }

    fn clear(&mut self, frames: u8, picture: &mut [u8]) {
        self.write(0, 0x04);
        for _ in 0..frames {
            self.0 = second::set_vb(&self.0, false, picture).state;
            self.0 = second::set_vb(&self.0, true, picture).state;
        }
    }

    fn write_pbm(picture: &[u8], buffer: &mut [u8]) {
        second::pbm_write(Format::Ef9366, picture, buffer);
    }

    fn read_pbm(file: &[u8], picture: &mut [u8]) {
        second::pbm_read(Format::Ef9366, file, picture);
    }
}

impl Draws for Plain {
    fn write(&mut self, address: u8, value: u8) {
        Plain::write(self, address, value);
    }

    fn grant(&mut self, n: u16, picture: &mut [u8], table: &[u8]) -> u16 {
        Plain::grant(self, n, picture, table).unwrap_or(0)
    }
}

impl Runner for Plain {
    fn fresh(format: Format) -> Plain {
        let mut card = Plain::new(format);
        card.set_vb(true, &mut vec![0; format.bytes()]);
        card
    }

    fn read(&mut self, address: u8) -> u16 {
        Plain::read(self, address).map_or(0, u16::from)
    }

    fn address(&self) -> [u8; 3] {
        Plain::address(self)
    }

    fn clear(&mut self, frames: u8, picture: &mut [u8]) {
        self.write(0, 0x04);
        for _ in 0..frames {
            self.set_vb(false, picture);
            self.set_vb(true, picture);
        }
    }

    fn write_pbm(picture: &[u8], buffer: &mut [u8]) {
        let _ = plain::pbm::write_pbm(Format::Ef9366, picture, buffer);
    }

    fn read_pbm(file: &[u8], picture: &mut [u8]) {
        plain::pbm::read_pbm(Format::Ef9366, file, picture);
    }
}

impl Draws for Tuned {
    fn write(&mut self, address: u8, value: u8) {
        Tuned::write(self, address, value);
    }

    fn grant(&mut self, n: u16, picture: &mut [u8], table: &[u8]) -> u16 {
        Tuned::grant(self, n, picture, table).unwrap_or(0)
    }
}

impl Runner for Tuned {
    fn fresh(format: Format) -> Tuned {
        Tuned::new(format)
    }

    fn read(&mut self, address: u8) -> u16 {
        Tuned::read(self, address).map_or(0, u16::from)
    }

    fn address(&self) -> [u8; 3] {
        Tuned::address(self)
    }

    fn clear(&mut self, _: u8, picture: &mut [u8]) {
        picture.fill(0);
    }

    fn write_pbm(picture: &[u8], buffer: &mut [u8]) {
        let _ = tuned::pbm::write_pbm(Format::Ef9366, picture, buffer);
    }

    fn read_pbm(file: &[u8], picture: &mut [u8]) {
        tuned::pbm::read_pbm(Format::Ef9366, file, picture);
    }
}
