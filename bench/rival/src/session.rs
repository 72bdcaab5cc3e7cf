//! The lines of a log, from their bytes to the messages that they deliver.

use crate::fault::Fault;
use crate::frame::{Frame, Layout};
use crate::grammar::{Recorded, recorded};
use crate::identifier::Sides;
use crate::order::{Order, Sink};
use crate::plain::Reader;
use crate::reception::{Reception, Taken};

pub struct Session<S> {
    sides: Sides,
    reader: Reader,
    /// The frame of the line that is read.
    frame: Frame,
    receptions: [Reception; 2],
    order: Order,
    pub sink: S,
    /// How many lines ended.
    lines: u64,
}

impl<S: Sink> Session<S> {
    pub fn new(sides: Sides, sink: S) -> Session<S> {
        Session {
            sides,
            reader: Reader::new(sides),
            frame: Frame::new(),
            receptions: [Reception::new(), Reception::new()],
            order: Order::new(),
            sink,
            lines: 0,
        }
    }

    /// Reads the lines that end among the first `filled` bytes of a text, behind which there is room for whole blocks.
    /// Answers how many bytes they have.
    pub fn read(&mut self, text: &[u8], filled: usize) -> Result<usize, Fault> {
        let mut at = 0;
        while at < filled {
            let (length, is_own) = match self.reader.read(&text[at..], &mut self.frame) {
                Some(plain) => (plain.length, plain.is_own),
                None => match text[at..filled].iter().position(|&byte| byte == b'\n') {
                    Some(end) => (end + 1, self.any_line(&text[at..at + end])?),
                    None => break,
                },
            };
            self.lines += 1;
            if is_own {
                self.accept()?;
            }
            at += length;
        }
        Ok(at)
    }

    /// The last line of a log, without its line feed.
    pub fn read_last(&mut self, line: &[u8]) -> Result<(), Fault> {
        let is_own = self.any_line(line)?;
        self.lines += 1;
        if is_own { self.accept() } else { Ok(()) }
    }

    /// The front of a line that has not ended, of which only a byte can be wrong yet.
    pub fn refuse_front(&self, front: &[u8]) -> Result<(), Fault> {
        match recorded(front) {
            Err(column) if column <= front.len() => Err(Fault::BadLine { line: self.lines + 1, column }),
            _ => Ok(()),
        }
    }

    pub fn finish(&mut self) -> Result<(), Fault> {
        self.order.finish(&mut self.sink)
    }

    /// Whether a line of any form records a frame of one of the two sides, which is then kept.
    #[cold]
    fn any_line(&mut self, line: &[u8]) -> Result<bool, Fault> {
        let found = recorded(line).map_err(|column| Fault::BadLine { line: self.lines + 1, column })?;
        let Some(Recorded { micros, identifier, data }) = found else { return Ok(false) };
        self.reader.remember(line);
        let Some(direction) = self.sides.direction_of(identifier) else { return Ok(false) };
        self.frame.direction = direction;
        self.frame.micros = micros;
        self.frame.length = data.len();
        self.frame.digits[..data.len()].copy_from_slice(data);
        self.frame.digits[..data.len()].make_ascii_uppercase();
        Ok(true)
    }

    /// What the frame does to the receptions and, where it completes a message, what that does to the session.
    fn accept(&mut self) -> Result<(), Fault> {
        let (frame, direction) = (&self.frame, self.frame.direction);
        let own = &mut self.receptions[direction as usize];
        match frame.layout() {
            Layout::Consecutive => match own.take(frame)? {
                Taken::Completed => self.order.take(direction, own.message(), &mut self.sink),
                Taken::Stored | Taken::Dropped => Ok(()),
            },
            Layout::Single { begin, length } => {
                own.end();
                self.order.take(direction, &frame.digits[begin..begin + length], &mut self.sink)
            }
            Layout::First { begin, length } => own.begin(frame, begin, length),
            Layout::TooLong { announced } => Err(Fault::Oversize { line: self.lines, announced }),
            Layout::Pacing => {
                self.receptions[direction.other() as usize].pace(frame.micros);
                Ok(())
            }
            Layout::Overflow => {
                self.receptions[direction.other() as usize].overflow();
                Ok(())
            }
            Layout::Nothing => Ok(()),
        }
    }
}
