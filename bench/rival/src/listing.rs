//! The text of `list`: a line for each exchange and each stray message. It is written once the log is accepted.

use std::io::Write;

use crate::canonical::Measure;
use crate::fault::Fault;
use crate::identifier::{Direction, Sides};
use crate::lanes::byte;
use crate::names::{code, has_sub_function, service};
use crate::order::Sink;

pub struct Listing<W> {
    out: W,
    text: Vec<u8>,
    items: u64,
    /// What is said of the open request if nothing answers it.
    unanswered: &'static [u8],
    measure: Measure,
    limit: u64,
}

impl<W: Write> Listing<W> {
    pub fn new(out: W, sides: &Sides, limit: u64) -> Listing<W> {
        Listing { out, text: Vec::new(), items: 0, unanswered: b"", measure: Measure::new(sides), limit }
    }

    pub fn finish(&mut self) -> Result<(), Fault> {
        if self.measure.bytes > self.limit {
            return Err(Fault::OutputLimit);
        }
        self.out.write_all(&self.text).map_err(|_| Fault::Write)
    }

    fn push(&mut self, part: &[u8]) -> Result<(), Fault> {
        self.text.try_reserve(part.len())?;
        self.text.extend_from_slice(part);
        Ok(())
    }

    fn push_number(&mut self) -> Result<(), Fault> {
        self.items += 1;
        let mut digits = [0; 20];
        let mut at = digits.len();
        let mut rest = self.items;
        while rest > 0 {
            at -= 1;
            digits[at] = b'0' + (rest % 10) as u8;
            rest /= 10;
        }
        self.push(&digits[at..])
    }

    /// A name, or what stands for it with the two digits of the number that has none.
    fn push_name(&mut self, name: Option<&str>, otherwise: &str, digits: &[u8]) -> Result<(), Fault> {
        match name {
            Some(name) => self.push(name.as_bytes()),
            None => {
                self.push(otherwise.as_bytes())?;
                self.push(digits)
            }
        }
    }
}

impl<W: Write> Sink for Listing<W> {
    fn request(&mut self, message: &[u8]) -> Result<(), Fault> {
        self.measure.add(Direction::Tester, message);
        let sid = byte(message, 0);
        let is_silent = message.len() >= 4 && byte(message, 1) & 0x80 != 0 && has_sub_function(sid);
        self.unanswered = if is_silent { b" -> silent\n" } else { b" -> unanswered\n" };
        self.push_number()?;
        self.push(b" exchange ")?;
        self.push_name(service(sid), "service_", &message[..2])?;
        self.push(b" ")?;
        self.push(message)
    }

    fn answer(&mut self, message: Option<&[u8]>) -> Result<(), Fault> {
        let Some(message) = message else { return self.push(self.unanswered) };
        self.measure.add(Direction::Unit, message);
        if message.starts_with(b"7F") {
            self.push(b" -> negative ")?;
            self.push_name(code(byte(message, 2)), "code_", &message[4..])?;
            self.push(b" ")?;
        } else {
            self.push(b" -> positive ")?;
        }
        self.push(message)?;
        self.push(b"\n")
    }

    fn stray(&mut self, direction: Direction, message: &[u8]) -> Result<(), Fault> {
        self.measure.add(direction, message);
        self.push_number()?;
        self.push(match direction {
            Direction::Tester => b" stray tester ",
            Direction::Unit => b" stray unit ",
        })?;
        self.push(message)?;
        self.push(b"\n")
    }
}
