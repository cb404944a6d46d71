//! The card that the static library exports, on whatever processor this runs.

#[cfg(not(linked))]
pub use crate::bridge::Library;
#[cfg(linked)]
pub use linked::Library;

#[cfg(linked)]
mod linked {
    use crate::card::Card;
    use crate::ffi;
    use crate::flat::{Flat, FlatAddress, FlatAnswer, FlatPbm};
    use crate::lent::Part;

    pub struct Library;

    impl Library {
        pub fn reach() -> Library {
            Library
        }
    }

    impl Card for Library {
        fn fresh(&self, format: u8) -> FlatAnswer {
            ffi::fresh(format)
        }

        fn write(&self, state: Flat, address: u8, value: u8) -> FlatAnswer {
            ffi::write(state, address, value)
        }

        fn read(&self, state: Flat, address: u8) -> FlatAnswer {
            ffi::read(state, address)
        }

        fn grant(&self, state: Flat, n: u16, mut picture: Part, mut table: Part) -> FlatAnswer {
            ffi::grant(state, n, picture.bytes(), table.bytes())
        }

        fn set_vb(&self, state: Flat, level: u8, mut picture: Part) -> FlatAnswer {
            ffi::set_vb(state, level, picture.bytes())
        }

        fn lpck(&self, state: Flat, h: u16, v: u16) -> FlatAnswer {
            ffi::lpck(state, h, v)
        }

        fn address(&self, state: Flat) -> FlatAddress {
            ffi::address(state)
        }

        fn write_pbm(&self, format: u8, mut picture: Part, mut buffer: Part) -> FlatPbm {
            ffi::write_pbm(format, picture.bytes(), buffer.bytes())
        }

        fn read_pbm(&self, format: u8, mut file: Part, mut picture: Part) -> FlatPbm {
            ffi::read_pbm(format, file.bytes(), picture.bytes())
        }
    }
}
