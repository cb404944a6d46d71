//! The whole state of the processor, and what the bits of its control registers mean.

use crate::format::Format;

/// The place where the running command began is not kept (reading 3): it is the
/// present place less the offset of the progress made.
#[derive(Clone, Copy, PartialEq, Eq, Debug)]
pub struct State {
    pub format: Format,
    pub ctrl1: u8,
    pub ctrl2: u8,
    pub csize: u8,
    pub deltax: u8,
    pub deltay: u8,
    pub x: u16,
    pub y: u16,
    pub xlp: u8,
    pub ylp: u8,
    pub work: Work,
    pub pen: Pen,
    pub vb: bool,
    pub flags: Flags,
}

/// The running command, if any.
#[derive(Clone, Copy, PartialEq, Eq, Debug)]
pub enum Work {
    Idle,
    /// A command that uses write cycles, `done` of them behind it.
    Steps {
        code: u8,
        done: u16,
    },
    /// A command that waits for blanking; `open` inside each of its frames, `frames_done` of them over.
    Clear {
        kind: ClearKind,
        open: bool,
        frames_done: u8,
    },
}

/// The four commands that change the picture whole.
#[derive(Clone, Copy, PartialEq, Eq, Debug)]
pub enum ClearKind {
    /// 04: clear the screen.
    Screen,
    /// 06: clear the screen, X and Y to 0.
    ScreenAndPosition,
    /// 07: clear the screen, registers as at the start.
    ScreenAndRegisters,
    /// 0C: every dot as CTRL1 bit 1 says.
    Fill,
}

/// The light pen sequence.
#[derive(Clone, Copy, PartialEq, Eq, Debug)]
pub enum Pen {
    Off,
    /// 08 or 09 was given and VB has not fallen since.
    Waiting,
    /// The frame is open: an LPCK edge counts.
    Open,
}

/// Bits 4, 5 and 6 of STATUS.
#[derive(Clone, Copy, PartialEq, Eq, Debug)]
pub struct Flags {
    pub pen_end: bool,
    pub vb_rise: bool,
    pub ready: bool,
}

pub const FRESH_CSIZE: u8 = 0x11;

pub const NO_FLAGS: Flags = Flags { pen_end: false, vb_rise: false, ready: false };

pub fn fresh(format: Format) -> State {
    State {
        format,
        ctrl1: 0,
        ctrl2: 0,
        csize: FRESH_CSIZE,
        deltax: 0,
        deltay: 0,
        x: 0,
        y: 0,
        xlp: 0,
        ylp: 0,
        work: Work::Idle,
        pen: Pen::Off,
        vb: false,
        flags: NO_FLAGS,
    }
}

pub const CTRL1_DOWN: u8 = 1 << 0;
pub const CTRL1_PEN: u8 = 1 << 1;
pub const CTRL1_CYCLIC: u8 = 1 << 3;
pub const CTRL1_PEN_END_MASK: u8 = 1 << 4;
pub const CTRL1_VB_MASK: u8 = 1 << 5;
pub const CTRL1_READY_MASK: u8 = 1 << 6;

pub const CTRL2_LINE_TYPE: u8 = 0b11;
pub const CTRL2_TILT: u8 = 1 << 2;
pub const CTRL2_TURNED: u8 = 1 << 3;

impl State {
    pub fn ctrl1_has(&self, bit: u8) -> bool {
        self.ctrl1 & bit != 0
    }

    pub fn ctrl2_has(&self, bit: u8) -> bool {
        self.ctrl2 & bit != 0
    }

    pub fn line_type(&self) -> u8 {
        self.ctrl2 & CTRL2_LINE_TYPE
    }

    /// A pen sequence is no running command (reading 19).
    pub fn busy(&self) -> bool {
        self.work != Work::Idle
    }

    /// The last frame of a running clear is not over, so no more than those before it count.
    /// A larger number is no bad state: what is too much of it is not looked at (reading b.3).
    pub fn with_frames_that_count(&self) -> State {
        let mut next = *self;
        if let Work::Clear { frames_done, .. } = &mut next.work {
            *frames_done = (*frames_done).min(self.format.frames() - 1);
        }
        next
    }
}
