//! A log that is read in large pieces, up to its limit.

use std::io::Read;

use crate::fault::Fault;
use crate::plain::SLACK;

const PIECE: usize = 1 << 16;

pub struct Log<R> {
    input: R,
    /// The bytes that are not used yet, room for more, and zeros behind them.
    block: Box<[u8]>,
    filled: usize,
    /// How many bytes may still be looked at.
    left: u64,
    pub is_longer: bool,
}

impl<R: Read> Log<R> {
    pub fn new(input: R, limit: u64) -> Log<R> {
        Log { input, block: vec![0; PIECE + SLACK].into_boxed_slice(), filled: 0, left: limit, is_longer: false }
    }

    /// Reads more. Answers false at the end of the log, and at its limit where it is longer.
    pub fn fill(&mut self) -> Result<bool, Fault> {
        let room = (PIECE - self.filled).min(usize::try_from(self.left + 1).unwrap_or(PIECE));
        let given = self.input.read(&mut self.block[self.filled..self.filled + room]).map_err(|_| Fault::Read)?;
        self.is_longer = given as u64 > self.left;
        let seen = given - self.is_longer as usize;
        self.left -= seen as u64;
        self.filled += seen;
        self.block[self.filled..self.filled + SLACK].fill(0);
        Ok(given > 0 && !self.is_longer)
    }

    /// The bytes that are not used yet, with zeros behind them, and how many they are.
    pub fn text(&self) -> (&[u8], usize) {
        (&self.block[..self.filled + SLACK], self.filled)
    }

    pub fn rest(&self) -> &[u8] {
        &self.block[..self.filled]
    }

    /// So many bytes are used.
    pub fn use_up(&mut self, count: usize) {
        self.block.copy_within(count..self.filled, 0);
        self.filled -= count;
    }
}
