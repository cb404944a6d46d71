//! What the library and its callers hand over, laid out as `include/gdp.h` has it.

/// The state in two 64-bit words.
#[repr(C)]
#[derive(Clone, Copy, PartialEq, Eq, Debug)]
pub struct Flat {
    pub x: u16,
    pub y: u16,
    pub done: u16,
    pub ctrl1: u8,
    pub ctrl2: u8,
    pub csize: u8,
    pub deltax: u8,
    pub deltay: u8,
    pub xlp: u8,
    pub ylp: u8,
    pub code: u8,
    pub modes: u8,
    pub signals: u8,
}

impl Flat {
    /// The sixteen bytes as they lie in memory; the 16-bit numbers have their lower byte first.
    pub fn bytes(&self) -> [u8; 16] {
        let ([x0, x1], [y0, y1]) = (self.x.to_le_bytes(), self.y.to_le_bytes());
        let [done0, done1] = self.done.to_le_bytes();
        [
            x0,
            x1,
            y0,
            y1,
            done0,
            done1,
            self.ctrl1,
            self.ctrl2,
            self.csize,
            self.deltax,
            self.deltay,
            self.xlp,
            self.ylp,
            self.code,
            self.modes,
            self.signals,
        ]
    }

    pub fn of(bytes: [u8; 16]) -> Flat {
        let word = |place: usize| u16::from_le_bytes([bytes[place], bytes[place + 1]]);
        Flat {
            x: word(0),
            y: word(2),
            done: word(4),
            ctrl1: bytes[6],
            ctrl2: bytes[7],
            csize: bytes[8],
            deltax: bytes[9],
            deltay: bytes[10],
            xlp: bytes[11],
            ylp: bytes[12],
            code: bytes[13],
            modes: bytes[14],
            signals: bytes[15],
        }
    }
}

#[repr(C)]
#[derive(Clone, Copy, PartialEq, Eq, Debug)]
pub struct FlatAnswer {
    pub number: u8,
    pub value: u16,
    pub state: Flat,
}

#[repr(C)]
#[derive(Clone, Copy, PartialEq, Eq, Debug)]
pub struct FlatAddress {
    pub number: u8,
    pub low: u8,
    pub high: u8,
    pub msl: u8,
}

/// The value is past 16 bits: the bytes of a file.
#[repr(C)]
#[derive(Clone, Copy, PartialEq, Eq, Debug)]
pub struct FlatPbm {
    pub number: u8,
    pub value: u32,
}

const _: () = assert!(size_of::<Flat>() == 16 && align_of::<Flat>() == 2);
const _: () = assert!(size_of::<FlatAnswer>() == 20 && size_of::<FlatAddress>() == 4);
const _: () = assert!(size_of::<FlatPbm>() == 8 && std::mem::offset_of!(FlatPbm, value) == 4);

/// What `gdp_fresh` hands back for a format that is none.
pub const ALL_ONES: Flat = Flat {
    x: 0xFFFF,
    y: 0xFFFF,
    done: 0xFFFF,
    ctrl1: 0xFF,
    ctrl2: 0xFF,
    csize: 0xFF,
    deltax: 0xFF,
    deltay: 0xFF,
    xlp: 0xFF,
    ylp: 0xFF,
    code: 0xFF,
    modes: 0xFF,
    signals: 0xFF,
};

// The fields of `modes`, from the lowest bit.
pub const FORMAT: u8 = 0b0000_0111;
pub const WORK: u8 = 0b0001_1000;
pub const IDLE: u8 = 0 << 3;
pub const STEPS: u8 = 1 << 3;
pub const CLEAR: u8 = 2 << 3;
pub const CLEAR_IS_0C: u8 = 1 << 5;
pub const CLEAR_IS_OPEN: u8 = 1 << 6;
/// In use only for a clear with FMAT high, which has two frames.
pub const FIRST_FRAME_OVER: u8 = 1 << 7;

// The fields of `signals`, likewise.
pub const SIGNALS_BIT_0: u8 = 1 << 0;
pub const VB: u8 = 1 << 1;
pub const PEN: u8 = 0b0000_1100;
pub const PEN_OFF: u8 = 0 << 2;
pub const PEN_WAITING: u8 = 1 << 2;
pub const PEN_OPEN: u8 = 2 << 2;
pub const PEN_FLAG: u8 = 1 << 4;
pub const VB_FLAG: u8 = 1 << 5;
pub const READY_FLAG: u8 = 1 << 6;
pub const SIGNALS_BIT_7: u8 = 1 << 7;
