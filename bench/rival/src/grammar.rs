//! Any line of a log, byte by byte. Lines of the form that `candump` writes are read in `plain`; this is for all others, and
//! tells the column of the first byte that no line can have.

use crate::identifier::Identifier;
use crate::lanes::{NO_DIGIT, digit};

/// A frame of a line that is not blank. The data are digits in either case, none for a remote frame.
pub struct Recorded<'a> {
    pub micros: u64,
    pub identifier: Identifier,
    pub data: &'a [u8],
}

/// The column, counted from 1, of the byte that refuses a line; that after its end where it lacks something.
type Column = usize;

/// What a line without its line feed records: nothing where it is blank.
pub fn recorded(line: &[u8]) -> Result<Option<Recorded<'_>>, Column> {
    let mut cursor = Cursor { line, at: 0 };
    if line.is_empty() || line[0] == b'\r' {
        return cursor.end().map(|()| None);
    }
    let micros = cursor.stamp()?;
    cursor.repeated(16, |byte| byte == b' ')?;
    cursor.repeated(15, |byte| (0x21..=0x7E).contains(&byte))?;
    cursor.repeated(16, |byte| byte == b' ')?;
    let identifier = cursor.identifier()?;
    let data = cursor.data()?;
    cursor.mark()?;
    cursor.end()?;
    Ok(Some(Recorded { micros, identifier, data }))
}

struct Cursor<'a> {
    line: &'a [u8],
    at: usize,
}

impl<'a> Cursor<'a> {
    fn here(&self) -> Option<u8> {
        self.line.get(self.at).copied()
    }

    fn refused<T>(&self) -> Result<T, Column> {
        Err(self.at + 1)
    }

    /// Whether the next byte passes, which is then taken.
    fn takes(&mut self, passes: impl Fn(u8) -> bool) -> bool {
        let is_taken = self.here().is_some_and(passes);
        self.at += is_taken as usize;
        is_taken
    }

    fn one(&mut self, passes: impl Fn(u8) -> bool) -> Result<(), Column> {
        if self.takes(passes) { Ok(()) } else { self.refused() }
    }

    /// One to `most` bytes that pass, as many as there are.
    fn repeated(&mut self, most: usize, passes: impl Fn(u8) -> bool) -> Result<(), Column> {
        self.one(&passes)?;
        let last = self.at + most - 1;
        while self.at < last && self.takes(&passes) {}
        Ok(())
    }

    fn stamp(&mut self) -> Result<u64, Column> {
        self.one(|byte| byte == b'(')?;
        let begin = self.at;
        self.repeated(10, |byte| byte.is_ascii_digit())?;
        let seconds = decimal(&self.line[begin..self.at]);
        self.one(|byte| byte == b'.')?;
        let begin = self.at;
        for _ in 0..6 {
            self.one(|byte| byte.is_ascii_digit())?;
        }
        let micros = decimal(&self.line[begin..self.at]);
        self.one(|byte| byte == b')')?;
        Ok(seconds * 1_000_000 + micros)
    }

    /// Three digits of at most 7FF or eight digits, and the `#` behind them.
    fn identifier(&mut self) -> Result<Identifier, Column> {
        let begin = self.at;
        for _ in 0..3 {
            self.one(is_digit)?;
        }
        let is_standard = self.line[begin] <= b'7' && self.here() == Some(b'#');
        if !is_standard {
            for _ in 0..5 {
                self.one(is_digit)?;
            }
        }
        let spelled = Identifier::spelled(&self.line[begin..self.at]);
        self.one(|byte| byte == b'#')?;
        spelled.ok_or(begin + 1)
    }

    fn data(&mut self) -> Result<&'a [u8], Column> {
        if self.takes(|byte| byte == b'#') {
            self.one(is_digit)?;
            return self.pairs(64);
        }
        if self.takes(|byte| byte == b'R') {
            let is_eight = self.here() == Some(b'8');
            self.takes(|byte| (b'0'..=b'8').contains(&byte));
            self.raw_length(is_eight)?;
            return Ok(&[]);
        }
        let data = self.pairs(8)?;
        self.raw_length(data.len() == 16)?;
        Ok(data)
    }

    /// At most so many pairs of digits.
    fn pairs(&mut self, most: usize) -> Result<&'a [u8], Column> {
        let begin = self.at;
        while self.at < begin + 2 * most && self.takes(is_digit) {
            self.one(is_digit)?;
        }
        Ok(&self.line[begin..self.at])
    }

    /// `_` and a digit 9 to F, which may follow eight bytes.
    fn raw_length(&mut self, may_follow: bool) -> Result<(), Column> {
        if may_follow && self.takes(|byte| byte == b'_') {
            self.one(|byte| is_digit(byte) && digit(byte) >= 9)?;
        }
        Ok(())
    }

    /// `R` or `T` behind a gap, which may follow a frame.
    fn mark(&mut self) -> Result<(), Column> {
        if self.here() == Some(b' ') {
            self.repeated(16, |byte| byte == b' ')?;
            self.one(|byte| byte == b'R' || byte == b'T')?;
        }
        Ok(())
    }

    /// The end of the line, with a carriage return or without.
    fn end(&mut self) -> Result<(), Column> {
        self.takes(|byte| byte == b'\r');
        if self.at == self.line.len() { Ok(()) } else { self.refused() }
    }
}

fn is_digit(byte: u8) -> bool {
    digit(byte) != NO_DIGIT
}

/// The value of at most ten decimal digits.
fn decimal(digits: &[u8]) -> u64 {
    digits.iter().fold(0, |value, byte| value * 10 + u64::from(byte - b'0'))
}
