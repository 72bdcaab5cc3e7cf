//! The reception of a message in several frames, by ISO 15765-2.

use crate::fault::Fault;
use crate::frame::{FRAME_DIGITS, Frame, is_frame_length};
use crate::lanes::LANES;

/// Microseconds that a consecutive frame may take after the frame before it (N_Cr).
const MOST_PAUSE: u64 = 1_000_000;

/// What becomes of a consecutive frame.
pub enum Taken {
    Dropped,
    Stored,
    /// The message is complete.
    Completed,
}

/// What one side has sent of a message.
pub struct Reception {
    is_open: bool,
    /// Digits of the message, and how many of them have come.
    announced: usize,
    have: usize,
    /// Digits of each frame but the last.
    frame_length: usize,
    /// The number of the next consecutive frame.
    next: usize,
    has_taken: bool,
    latest: u64,
    text: Vec<u8>,
}

impl Reception {
    pub fn new() -> Reception {
        Reception { is_open: false, announced: 0, have: 0, frame_length: 0, next: 1, has_taken: false, latest: 0, text: Vec::new() }
    }

    pub fn begin(&mut self, frame: &Frame, begin: usize, length: usize) -> Result<(), Fault> {
        let have = frame.length - begin;
        if self.text.len() < FRAME_DIGITS {
            self.grow()?;
        }
        self.text[..have].copy_from_slice(&frame.digits[begin..frame.length]);
        *self = Reception {
            is_open: true,
            announced: length,
            have,
            frame_length: frame.length,
            next: 1,
            has_taken: false,
            latest: frame.micros,
            text: std::mem::take(&mut self.text),
        };
        Ok(())
    }

    pub fn end(&mut self) {
        self.is_open = false;
    }

    /// The other side asks for more frames, or for patience.
    pub fn pace(&mut self, micros: u64) {
        if self.is_open {
            self.latest = micros;
        }
    }

    /// The other side has no room for the message, which it may say before the first consecutive frame.
    pub fn overflow(&mut self) {
        if !self.has_taken {
            self.is_open = false;
        }
    }

    pub fn take(&mut self, frame: &Frame) -> Result<Taken, Fault> {
        if !self.is_open {
            return Ok(Taken::Dropped);
        }
        if !self.fits(frame) {
            self.is_open = false;
            return Ok(Taken::Dropped);
        }
        self.store(frame)?;
        self.latest = frame.micros;
        self.next = (self.next + 1) % 16;
        self.has_taken = true;
        if self.have < self.announced {
            return Ok(Taken::Stored);
        }
        self.is_open = false;
        Ok(Taken::Completed)
    }

    /// Whether the frame is the next one: in time, with its number, and of the length of the others or, where it is the last,
    /// as long as the message needs.
    fn fits(&self, frame: &Frame) -> bool {
        let is_full = frame.length == self.frame_length;
        let is_last = frame.length < self.frame_length && frame.length - 2 >= self.announced - self.have;
        frame.micros <= self.latest + MOST_PAUSE
            && frame.digits[1] == b"0123456789ABCDEF"[self.next]
            && (is_full || is_last && is_frame_length(frame.length))
    }

    /// Keeps the data of a frame. Whole blocks are copied, and what is not the message's is overwritten by the next frame.
    fn store(&mut self, frame: &Frame) -> Result<(), Fault> {
        if self.text.len() < self.have + FRAME_DIGITS {
            self.grow()?;
        }
        let room = &mut self.text[self.have..self.have + FRAME_DIGITS];
        if frame.length <= LANES {
            room[..LANES].copy_from_slice(&frame.digits[2..2 + LANES]);
        } else {
            room[..FRAME_DIGITS - 2].copy_from_slice(&frame.digits[2..]);
        }
        self.have += frame.length - 2;
        Ok(())
    }

    /// Twice the room, so that what is kept is in proportion to what has come.
    #[cold]
    fn grow(&mut self) -> Result<(), Fault> {
        let more = self.text.len().max(4 * FRAME_DIGITS);
        self.text.try_reserve_exact(more)?;
        self.text.resize(self.text.len() + more, b'0');
        Ok(())
    }

    /// The digits of the message that is complete.
    pub fn message(&self) -> &[u8] {
        &self.text[..self.announced]
    }
}
