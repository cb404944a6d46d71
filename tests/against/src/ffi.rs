//! The library's own calls, made safe: a lent memory is a slice here, a pointer and a length there.

use crate::flat::{Flat, FlatAddress, FlatAnswer, FlatPbm};

mod exported {
    use crate::flat::{Flat, FlatAddress, FlatAnswer, FlatPbm};

    extern "C" {
        pub fn gdp_fresh(format: u8) -> FlatAnswer;
        pub fn gdp_write(state: Flat, address: u8, value: u8) -> FlatAnswer;
        pub fn gdp_read(state: Flat, address: u8) -> FlatAnswer;
        pub fn gdp_grant(
            state: Flat,
            n: u16,
            pic: *mut u8,
            pic_len: usize,
            table: *const u8,
            table_len: usize,
        ) -> FlatAnswer;
        pub fn gdp_set_vb(state: Flat, level: u8, pic: *mut u8, pic_len: usize) -> FlatAnswer;
        pub fn gdp_lpck(state: Flat, h: u16, v: u16) -> FlatAnswer;
        pub fn gdp_address(state: Flat) -> FlatAddress;
        pub fn gdp_write_pbm(
            format: u8,
            picture: *const u8,
            picture_length: usize,
            buffer: *mut u8,
            buffer_length: usize,
        ) -> FlatPbm;
        pub fn gdp_read_pbm(
            format: u8,
            file: *const u8,
            file_length: usize,
            picture: *mut u8,
            picture_length: usize,
        ) -> FlatPbm;
    }
}

// SAFETY of every call below: the structs are plain numbers laid out as C does, and a pointer comes from
// a slice with its own length. A slice's pointer is never null, not even when the slice is empty.

pub fn fresh(format: u8) -> FlatAnswer {
    unsafe { exported::gdp_fresh(format) }
}

pub fn write(state: Flat, address: u8, value: u8) -> FlatAnswer {
    unsafe { exported::gdp_write(state, address, value) }
}

pub fn read(state: Flat, address: u8) -> FlatAnswer {
    unsafe { exported::gdp_read(state, address) }
}

pub fn grant(state: Flat, n: u16, picture: &mut [u8], table: &[u8]) -> FlatAnswer {
    let (pic, pic_len) = (picture.as_mut_ptr(), picture.len());
    unsafe { exported::gdp_grant(state, n, pic, pic_len, table.as_ptr(), table.len()) }
}

pub fn set_vb(state: Flat, level: u8, picture: &mut [u8]) -> FlatAnswer {
    unsafe { exported::gdp_set_vb(state, level, picture.as_mut_ptr(), picture.len()) }
}

pub fn lpck(state: Flat, h: u16, v: u16) -> FlatAnswer {
    unsafe { exported::gdp_lpck(state, h, v) }
}

pub fn address(state: Flat) -> FlatAddress {
    unsafe { exported::gdp_address(state) }
}

pub fn write_pbm(format: u8, picture: &[u8], buffer: &mut [u8]) -> FlatPbm {
    let (to, room) = (buffer.as_mut_ptr(), buffer.len());
    unsafe { exported::gdp_write_pbm(format, picture.as_ptr(), picture.len(), to, room) }
}

pub fn read_pbm(format: u8, file: &[u8], picture: &mut [u8]) -> FlatPbm {
    let (to, room) = (picture.as_mut_ptr(), picture.len());
    unsafe { exported::gdp_read_pbm(format, file.as_ptr(), file.len(), to, room) }
}
