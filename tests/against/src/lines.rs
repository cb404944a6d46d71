//! The address outputs as the paper's table prints them, said once more so that neither card is asked: what each line
//! carries, the lowest first.

use crate::flat::FlatAddress;
use second::Format;
use Line::{High, X, Y};

/// A row of the table.
pub struct Printed {
    ck_low: [Line; 7],
    ck_high: [Line; 7],
    msl: Msl,
}

#[derive(Clone, Copy)]
enum Line {
    /// This bit of X.
    X(u8),
    /// This bit of Y.
    Y(u8),
    High,
}

enum Msl {
    Lines([Line; 4]),
    /// Line k is low exactly when X mod 4 = k.
    OneLow,
}

const EF9366: Printed = Printed {
    ck_low: [X(8), X(7), X(6), X(5), X(4), X(3), Y(0)],
    ck_high: [Y(7), Y(6), Y(5), Y(4), Y(3), Y(2), Y(1)],
    msl: Msl::Lines([X(0), X(1), X(2), High]),
};

const FMAT_HIGH: Printed = Printed {
    ck_low: [X(8), X(7), X(6), X(5), X(4), X(3), Y(1)],
    ck_high: [Y(8), Y(7), Y(6), Y(5), Y(4), Y(3), Y(0)],
    msl: Msl::Lines([X(0), X(1), X(2), Y(2)]),
};

const FMAT_LOW: Printed = Printed {
    ck_low: [X(7), X(6), X(5), X(4), X(3), X(2), Y(0)],
    ck_high: [Y(7), Y(6), Y(5), Y(4), Y(3), Y(2), Y(1)],
    msl: Msl::OneLow,
};

pub fn printed(format: Format) -> &'static Printed {
    match format {
        Format::Ef9366 => &EF9366,
        Format::Ef9365High => &FMAT_HIGH,
        Format::Ef9365Low => &FMAT_LOW,
    }
}

impl Printed {
    /// What an accepted call answers at X and Y.
    pub fn at(&self, x: u16, y: u16) -> FlatAddress {
        let is_high = |line: &Line| match *line {
            X(bit) => x >> bit & 1 == 1,
            Y(bit) => y >> bit & 1 == 1,
            High => true,
        };
        let msl = match self.msl {
            Msl::Lines(lines) => byte(lines.iter().map(is_high)),
            Msl::OneLow => byte((0..4).map(|k| x % 4 != k)),
        };
        let [low, high] = [self.ck_low, self.ck_high].map(|lines| byte(lines.iter().map(is_high)));
        FlatAddress { number: 0, low, high, msl }
    }
}

fn byte(levels: impl Iterator<Item = bool>) -> u8 {
    levels.enumerate().map(|(place, is_high)| u8::from(is_high) << place).sum()
}
