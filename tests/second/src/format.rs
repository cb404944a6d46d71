//! The three formats: how wide and high the window is, and how long a clear of it takes.

#[derive(Clone, Copy, PartialEq, Eq, Debug)]
pub enum Format {
    Ef9366,
    /// EF9365 with FMAT high.
    Ef9365High,
    /// EF9365 with FMAT low.
    Ef9365Low,
}

impl Format {
    pub fn width(self) -> u16 {
        match self {
            Format::Ef9366 | Format::Ef9365High => 512,
            Format::Ef9365Low => 256,
        }
    }

    pub fn height(self) -> u16 {
        match self {
            Format::Ef9365High => 512,
            Format::Ef9366 | Format::Ef9365Low => 256,
        }
    }

    pub fn dots(self) -> usize {
        usize::from(self.width()) * usize::from(self.height())
    }

    /// Eight dots share a byte of the picture.
    pub fn bytes(self) -> usize {
        usize::from(self.width() / 8) * usize::from(self.height())
    }

    /// The frames a clear takes: a frame of an interlaced scan passes over one half of the lines only.
    pub fn frames(self) -> u8 {
        match self {
            Format::Ef9365High => 2,
            Format::Ef9366 | Format::Ef9365Low => 1,
        }
    }
}
