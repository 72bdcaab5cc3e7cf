//! What a frame is by ISO 15765-2. Its data stay the digits that the log has, in upper case: what is stored and written
//! needs no others, and only what is computed with is decoded. Lengths of data count digits, two for a byte.

use crate::fault::MESSAGE_LIMIT;
use crate::identifier::Direction;
use crate::lanes::{LANES, byte, number};

/// The digits of the longest frame, and room behind them, so that they can be copied in blocks.
pub const FRAME_DIGITS: usize = 128 + LANES;

/// A frame of one of the two sides.
pub struct Frame {
    pub direction: Direction,
    pub micros: u64,
    pub digits: [u8; FRAME_DIGITS],
    pub length: usize,
}

/// What a frame says. Numbers of digits stand for bytes of the message.
pub enum Layout {
    /// The message lies in the frame.
    Single { begin: usize, length: usize },
    /// The message has this many digits, of which the first lie in the frame.
    First { begin: usize, length: usize },
    /// It announces more bytes than a message has.
    TooLong { announced: u32 },
    Consecutive,
    /// A continue or wait frame.
    Pacing,
    Overflow,
    Nothing,
}

impl Frame {
    pub fn new() -> Frame {
        Frame { direction: Direction::Tester, micros: 0, digits: [b'0'; FRAME_DIGITS], length: 0 }
    }

    pub fn layout(&self) -> Layout {
        if self.length == 0 || !is_frame_length(self.length) {
            return Layout::Nothing;
        }
        match self.digits[0] {
            b'0' => self.single(),
            b'1' => self.first(),
            b'2' => Layout::Consecutive,
            b'3' => self.flow_control(),
            _ => Layout::Nothing,
        }
    }

    fn single(&self) -> Layout {
        let is_short = self.length <= 16;
        let (begin, begins_well) = if is_short { (2, true) } else { (4, self.digits[1] == b'0') };
        let length = 2 * byte(&self.digits, begin / 2 - 1) as usize;
        if begins_well && length > 0 && length <= self.length - begin {
            Layout::Single { begin, length }
        } else {
            Layout::Nothing
        }
    }

    fn first(&self) -> Layout {
        if self.length < 16 {
            return Layout::Nothing;
        }
        let short = number(&self.digits[1..4]);
        if short == 0 {
            return self.escaped();
        }
        let least = if self.length == 16 { 8 } else { self.length as u32 / 2 - 1 };
        if short < least {
            return Layout::Nothing;
        }
        Layout::First { begin: 4, length: 2 * short as usize }
    }

    /// A first frame whose length stands in the four bytes after the two of the others.
    fn escaped(&self) -> Layout {
        let announced = number(&self.digits[4..8]) << 16 | number(&self.digits[8..12]);
        match announced {
            0..=4095 => Layout::Nothing,
            _ if announced as usize > MESSAGE_LIMIT => Layout::TooLong { announced },
            _ => Layout::First { begin: 12, length: 2 * announced as usize },
        }
    }

    fn flow_control(&self) -> Layout {
        match self.digits[1] {
            _ if self.length < 6 => Layout::Nothing,
            b'0' | b'1' => Layout::Pacing,
            b'2' => Layout::Overflow,
            _ => Layout::Nothing,
        }
    }
}

/// Whether a frame may have this many digits.
pub fn is_frame_length(digits: usize) -> bool {
    digits <= 16 || matches!(digits, 24 | 32 | 40 | 48 | 64 | 96 | 128)
}
