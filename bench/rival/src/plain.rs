//! Lines of the form that `candump` writes: ten digits of seconds, the interface of the line before, nothing behind the data.
//! They are read in words of eight and blocks of sixteen bytes; whatever looks otherwise is left to `grammar`.

use crate::frame::Frame;
use crate::identifier::{Direction, Identifier, Sides};
use crate::lanes::{LANES, count_digits, digit, lanes, number, upper, word};

/// Room behind a log for whole blocks.
pub const SLACK: usize = 256;

/// Bytes of `(SSSSSSSSSS.mmmmmm)`.
const STAMP: usize = 19;
/// The longest interface that is remembered, with the spaces around it.
const NAME: usize = 16;
/// The rest of the longest line.
const REST: usize = 160;

/// Each byte of `.000000)`; what differs from it is the value of a digit.
const MICROS: u64 = u64::from_le_bytes(*b".000000)");
/// What each byte may differ by, taken from the highest bit: nine for a digit, nothing for the others.
const MOST: u64 = u64::from_le_bytes([0x7F, 0x76, 0x76, 0x76, 0x76, 0x76, 0x76, 0x7F]);
const HIGH: u64 = 0x8080_8080_8080_8080;

/// A line that was read. Its frame, if it is one of the two sides, is in the frame that was given.
pub struct Plain {
    pub length: usize,
    pub is_own: bool,
}

/// What was the same in the line before.
pub struct Reader {
    sides: Sides,
    /// The digits of the identifiers with their `#`, of those that have three.
    keys: [u64; 2],
    /// The first eleven bytes of a line, in two words that share some of them, and their time. At first they are not alike.
    seconds: [u64; 2],
    micros: u64,
    /// The interface with its spaces, the bits that count in it, and its length.
    name: u128,
    mask: u128,
    name_length: usize,
}

impl Reader {
    pub fn new(sides: Sides) -> Reader {
        let keys = [key(sides.tester), key(sides.unit)];
        Reader { sides, keys, seconds: [0, u64::MAX], micros: 0, name: 1, mask: 0, name_length: 0 }
    }

    /// Reads the line at the front of a text that has `SLACK` bytes more than the log. None where it is of another form.
    #[inline]
    pub fn read(&mut self, text: &[u8], frame: &mut Frame) -> Option<Plain> {
        let front = text.first_chunk::<{ STAMP + NAME }>()?;
        let micros = self.micros(front)?;
        if u128::from_le_bytes(*lanes(front, STAMP)) & self.mask != self.name {
            return None;
        }
        let begin = STAMP + self.name_length;
        let rest = text[begin..].first_chunk::<REST>()?;
        let key = u64::from(u32::from_le_bytes(*rest.first_chunk().unwrap()));
        let (direction, data) = match self.keys {
            [tester, _] if key == tester => (Some(Direction::Tester), 4),
            [_, unit] if key == unit => (Some(Direction::Unit), 4),
            _ => self.other(rest)?,
        };
        let Some(direction) = direction else {
            return Some(Plain { length: begin + data + foreign(&rest[data..])?, is_own: false });
        };
        frame.direction = direction;
        frame.micros = self.micros + decimal(micros);
        Some(Plain { length: begin + data + own(&rest[data..], frame)?, is_own: true })
    }

    /// The values of the digits behind the seconds, where the stamp is one. The seconds are those of the line before or are
    /// read anew.
    fn micros(&mut self, front: &[u8; STAMP + NAME]) -> Option<u64> {
        let seconds = [word(front, 0), word(front, 3)];
        if seconds != self.seconds {
            self.micros = 1_000_000 * seconds_of(&front[..11])?;
            self.seconds = seconds;
        }
        let values = word(front, 11) ^ MICROS;
        if (values | values.wrapping_add(MOST)) & HIGH == 0 { Some(values) } else { None }
    }

    /// An identifier that is not spelled as those of the two sides: its side, if it is theirs nevertheless, and where the
    /// data begin.
    fn other(&self, rest: &[u8; REST]) -> Option<(Option<Direction>, usize)> {
        if rest[3] == b'#' {
            let value = number(&rest[..3]);
            return if value <= 0x7FF { Some((self.sides.direction_of(Identifier::Standard(value)), 4)) } else { None };
        }
        let value = Identifier::spelled(&rest[..8])?;
        if rest[8] == b'#' { Some((self.sides.direction_of(value), 9)) } else { None }
    }

    /// Remembers the interface of a legal line with ten digits of seconds.
    #[cold]
    pub fn remember(&mut self, line: &[u8]) {
        let Some(front) = line.first_chunk::<{ STAMP + NAME }>() else { return };
        let gap = front[STAMP + 1..].iter().position(|&byte| byte == b' ');
        if let (b")", Some(end)) = (&front[STAMP - 1..STAMP], gap) {
            self.name_length = end + 2;
            self.mask = u128::MAX >> (8 * (NAME - self.name_length));
            self.name = u128::from_le_bytes(*lanes(front, STAMP)) & self.mask;
        }
    }
}

/// An identifier of three digits with its `#` as a word, and more than any such word for one of eight.
fn key(identifier: Identifier) -> u64 {
    match identifier {
        Identifier::Standard(_) => u32::from_le_bytes(format!("{}#", identifier.text()).as_bytes().try_into().unwrap()).into(),
        Identifier::Extended(_) => u64::MAX,
    }
}

#[cold]
fn seconds_of(front: &[u8]) -> Option<u64> {
    let is_front = front[0] == b'(' && front[1..].iter().all(u8::is_ascii_digit);
    if is_front { Some(front[1..].iter().fold(0, |value, byte| value * 10 + u64::from(byte - b'0'))) } else { None }
}

/// The number of the six digits whose values are the bytes 1 to 6: pairs, then fours, then all.
fn decimal(values: u64) -> u64 {
    let digits = values << 8;
    let pairs = digits * 10 + (digits >> 8);
    let low = (pairs & 0x0000_00FF_0000_00FF).wrapping_mul(100 + (1_000_000 << 32));
    let high = (pairs >> 16 & 0x0000_00FF_0000_00FF).wrapping_mul(1 + (10_000 << 32));
    low.wrapping_add(high) >> 32
}

/// The length of the data of a frame of neither side, with the line feed.
#[inline]
fn foreign(data: &[u8]) -> Option<usize> {
    let count = count_digits(data.first_chunk()?);
    if count < LANES { short(data, count, foreign_long) } else { ended(data, LANES) }
}

/// The same of a frame of one of them, whose digits are kept.
#[inline]
fn own(data: &[u8], frame: &mut Frame) -> Option<usize> {
    let block = data.first_chunk()?;
    let count = count_digits(block);
    frame.digits[..LANES].copy_from_slice(&upper(block));
    frame.length = count;
    if count < LANES { short(data, count, |data| own_long(data, frame)) } else { ended(data, LANES) }
}

/// Fewer digits than a block has, or none since the frame is one of CAN FD.
#[inline]
fn short(data: &[u8], count: usize, long: impl FnOnce(&[u8]) -> Option<usize>) -> Option<usize> {
    if count == 0 && data[0] == b'#' && digit(data[1]) < 16 {
        return long(&data[2..]).map(|length| 2 + length);
    }
    ended(data, count)
}

/// So many digits are a line's last.
fn ended(data: &[u8], count: usize) -> Option<usize> {
    if count % 2 == 0 && data[count] == b'\n' { Some(count + 1) } else { None }
}

fn foreign_long(data: &[u8]) -> Option<usize> {
    blocks(data, |_, _| ())
}

fn own_long(data: &[u8], frame: &mut Frame) -> Option<usize> {
    let length = blocks(data, |at, block| frame.digits[at..at + LANES].copy_from_slice(&upper(block)))?;
    frame.length = length - 1;
    Some(length)
}

/// The length of the data of a frame of CAN FD, which are handed on in blocks.
#[inline]
fn blocks(data: &[u8], mut keep: impl FnMut(usize, &[u8; LANES])) -> Option<usize> {
    let data = data.first_chunk::<{ 128 + LANES }>()?;
    for at in (0..128).step_by(LANES) {
        let block = data[at..].first_chunk()?;
        keep(at, block);
        let count = count_digits(block);
        if count < LANES {
            return ended(data, at + count);
        }
    }
    ended(data, 128)
}
