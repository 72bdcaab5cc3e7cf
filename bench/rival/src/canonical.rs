//! The canonical log: messages cut into classic frames of eight bytes, a line and a millisecond each.

use std::io::Write;

use crate::fault::Fault;
use crate::identifier::{Direction, Identifier, Sides};
use crate::lanes::LANES;
use crate::order::Sink;

const PADDING: [u8; LANES] = *b"CCCCCCCCCCCCCCCC";
const FLOW_CONTROL: [u8; LANES] = *b"300000CCCCCCCCCC";
const FRONT: &[u8; 16] = b"(0000000000.0000";
/// Bytes of a line behind its front and before its data, and room behind them.
const LABEL: usize = 24;
/// Room for the longest line.
const LINE: usize = 64;
const BLOCK: usize = 1 << 16;

/// The front of a line up to its tenth of a millisecond, counted in its digits.
struct Clock {
    begin: u64,
    end: u64,
}

impl Clock {
    fn new() -> Clock {
        Clock::of(FRONT)
    }

    fn of(front: &[u8; 16]) -> Clock {
        let text = u128::from_le_bytes(*front);
        Clock { begin: text as u64, end: (text >> 64) as u64 }
    }

    /// A millisecond later. The digit of milliseconds is byte 14 of the front.
    fn tick(&mut self) {
        self.end += 1 << 48;
        if (self.end >> 48) as u8 > b'9' {
            self.carry();
        }
    }

    #[cold]
    fn carry(&mut self) {
        let mut front = (u128::from(self.end) << 64 | u128::from(self.begin)).to_le_bytes();
        for at in (2..=14).rev() {
            if front[at] == b'9' + 1 {
                front[at] = b'0';
                let above = if front[at - 1] == b'.' { at - 2 } else { at - 1 };
                front[above] += 1;
            }
        }
        *self = Clock::of(&front);
    }
}

/// What stands in the lines of a side between the front and the data.
struct Label {
    text: [u8; LABEL],
    length: usize,
}

impl Label {
    fn new(identifier: Identifier) -> Label {
        let written = format!("00) can0 {}#", identifier.text());
        let mut text = [b' '; LABEL];
        text[..written.len()].copy_from_slice(written.as_bytes());
        Label { text, length: written.len() }
    }

    /// How many bytes a line has.
    fn line(&self) -> usize {
        FRONT.len() + self.length + LANES + 1
    }
}

/// How long the canonical log is, of messages whose lines need not be written.
pub struct Measure {
    lines: [usize; 2],
    pub bytes: u64,
}

impl Measure {
    pub fn new(sides: &Sides) -> Measure {
        Measure { lines: [Label::new(sides.tester).line(), Label::new(sides.unit).line()], bytes: 0 }
    }

    pub fn add(&mut self, direction: Direction, message: &[u8]) {
        let own = self.lines[direction as usize] as u64;
        self.bytes += own;
        if message.len() > LANES - 2 {
            let rest = message.len() - begun(message.len());
            self.bytes += own * rest.div_ceil(LANES - 2) as u64 + self.lines[direction.other() as usize] as u64;
        }
    }
}

/// How many digits of a message of several frames lie in the first one.
fn begun(length: usize) -> usize {
    if length <= 2 * 4095 { 12 } else { 4 }
}

/// Writes the lines of messages, in blocks, and none that goes past the limit.
pub struct Lines<W> {
    out: W,
    clock: Clock,
    labels: [Label; 2],
    block: Box<[u8]>,
    filled: usize,
    room: u64,
    is_exceeded: bool,
}

impl<W: Write> Lines<W> {
    pub fn new(out: W, sides: &Sides, limit: u64) -> Lines<W> {
        Lines {
            out,
            clock: Clock::new(),
            labels: [Label::new(sides.tester), Label::new(sides.unit)],
            block: vec![0; BLOCK].into_boxed_slice(),
            filled: 0,
            room: limit,
            is_exceeded: false,
        }
    }

    /// Writes what has been put, as many whole lines as are within the limit.
    pub fn flush(&mut self) -> Result<(), Fault> {
        let mut text = &self.block[..self.filled];
        if text.len() as u64 > self.room {
            self.is_exceeded = true;
            let fitting = &text[..self.room as usize];
            text = &text[..fitting.iter().rposition(|&byte| byte == b'\n').map_or(0, |at| at + 1)];
        }
        self.out.write_all(text).map_err(|_| Fault::Write)?;
        self.room = if self.is_exceeded { 0 } else { self.room - text.len() as u64 };
        self.filled = 0;
        Ok(())
    }

    pub fn finish(&mut self) -> Result<(), Fault> {
        self.flush()?;
        if self.is_exceeded { Err(Fault::OutputLimit) } else { Ok(()) }
    }

    fn put(&mut self, direction: Direction, message: &[u8]) -> Result<(), Fault> {
        let length = message.len();
        if length <= LANES - 2 {
            return self.frame(direction, [b'0', digit(length / 2)], message);
        }
        let begun = begun(length);
        let mut first = PADDING;
        write_head(&mut first, length / 2);
        first[LANES - begun..].copy_from_slice(&message[..begun]);
        self.line(direction, first)?;
        self.line(direction.other(), FLOW_CONTROL)?;
        self.consecutive(direction, message, begun)
    }

    /// The consecutive frames, with what of the message lies behind the first.
    fn consecutive(&mut self, direction: Direction, message: &[u8], begun: usize) -> Result<(), Fault> {
        let mut number = 1;
        let mut at = begun;
        while let Some(behind) = message[at - 2..].first_chunk::<LANES>() {
            let mut data = *behind;
            data[..2].copy_from_slice(&[b'2', digit(number)]);
            self.line(direction, data)?;
            number = (number + 1) % 16;
            at += LANES - 2;
        }
        if at < message.len() {
            self.frame(direction, [b'2', digit(number)], &message[at..])?;
        }
        Ok(())
    }

    /// A frame that is filled up.
    fn frame(&mut self, direction: Direction, control: [u8; 2], part: &[u8]) -> Result<(), Fault> {
        let mut data = PADDING;
        data[..2].copy_from_slice(&control);
        data[2..2 + part.len()].copy_from_slice(part);
        self.line(direction, data)
    }

    fn line(&mut self, direction: Direction, data: [u8; LANES]) -> Result<(), Fault> {
        if self.filled > BLOCK - LINE {
            self.flush()?;
        }
        let label = &self.labels[direction as usize];
        let line = self.block[self.filled..].first_chunk_mut::<LINE>().unwrap();
        line[..8].copy_from_slice(&self.clock.begin.to_le_bytes());
        line[8..16].copy_from_slice(&self.clock.end.to_le_bytes());
        line[16..16 + LABEL].copy_from_slice(&label.text);
        let end = 16 + label.length;
        line[end..end + LANES].copy_from_slice(&data);
        line[end + LANES] = b'\n';
        self.filled += end + LANES + 1;
        self.clock.tick();
        Ok(())
    }
}

fn digit(value: usize) -> u8 {
    b"0123456789ABCDEF"[value % 16]
}

/// The control information of a first frame of a message of this many bytes.
fn write_head(first: &mut [u8; LANES], bytes: usize) {
    let at = if bytes <= 4095 { 0 } else { 4 };
    let digits = if bytes <= 4095 { 4 } else { 8 };
    first[..4].copy_from_slice(b"1000");
    for n in 0..digits {
        let value = digit(bytes >> (4 * (digits - 1 - n)));
        first[at + n] = if at + n == 0 { b'1' } else { value };
    }
}

impl<W: Write> Sink for Lines<W> {
    fn request(&mut self, message: &[u8]) -> Result<(), Fault> {
        self.put(Direction::Tester, message)
    }

    fn answer(&mut self, message: Option<&[u8]>) -> Result<(), Fault> {
        message.map_or(Ok(()), |message| self.put(Direction::Unit, message))
    }

    fn stray(&mut self, direction: Direction, message: &[u8]) -> Result<(), Fault> {
        self.put(direction, message)
    }
}
