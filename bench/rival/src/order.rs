//! Requests with their answers by ISO 14229-1, in the order of the canonical log. Messages are digits in upper case.

use crate::fault::Fault;
use crate::identifier::Direction;
use crate::lanes::byte;

/// Who takes the messages of a session in their order.
pub trait Sink {
    /// A request. What comes next is what came of it.
    fn request(&mut self, message: &[u8]) -> Result<(), Fault>;
    /// The answer of the request before, or that it has none.
    fn answer(&mut self, message: Option<&[u8]>) -> Result<(), Fault>;
    fn stray(&mut self, direction: Direction, message: &[u8]) -> Result<(), Fault>;
}

/// What is known of the open request, and the strays since then.
pub struct Order {
    open: Option<[u8; 2]>,
    held: Vec<u8>,
    /// Of each stray that is held its side, and where its digits end.
    strays: Vec<(Direction, usize)>,
}

impl Order {
    pub fn new() -> Order {
        Order { open: None, held: Vec::new(), strays: Vec::new() }
    }

    pub fn take(&mut self, direction: Direction, message: &[u8], sink: &mut impl Sink) -> Result<(), Fault> {
        if direction == Direction::Tester && is_request(message) {
            self.finish(sink)?;
            self.open = Some([message[0], message[1]]);
            return sink.request(message);
        }
        match self.open {
            None => sink.stray(direction, message),
            Some(service) if direction == Direction::Unit && is_final(service, message) => {
                sink.answer(Some(message))?;
                self.open = None;
                self.release(sink)
            }
            Some(service) if direction == Direction::Unit && is_pending(service, message) => Ok(()),
            Some(_) => self.hold(direction, message),
        }
    }

    /// The open request has no answer.
    pub fn finish(&mut self, sink: &mut impl Sink) -> Result<(), Fault> {
        if self.open.take().is_some() {
            sink.answer(None)?;
        }
        self.release(sink)
    }

    fn hold(&mut self, direction: Direction, message: &[u8]) -> Result<(), Fault> {
        self.held.try_reserve(message.len())?;
        self.strays.try_reserve(1)?;
        self.held.extend_from_slice(message);
        self.strays.push((direction, self.held.len()));
        Ok(())
    }

    fn release(&mut self, sink: &mut impl Sink) -> Result<(), Fault> {
        let mut begin = 0;
        for &(direction, end) in &self.strays {
            sink.stray(direction, &self.held[begin..end])?;
            begin = end;
        }
        self.strays.clear();
        self.held.clear();
        Ok(())
    }
}

/// Bit 6 of the first byte tells responses from requests; a tester's `3E 80` keeps a session alive and asks for nothing.
fn is_request(message: &[u8]) -> bool {
    byte(message, 0) & 0x40 == 0 && message != b"3E80"
}

fn is_final(service: [u8; 2], message: &[u8]) -> bool {
    is_positive(service, message) || (is_negative(service, message) && message[4..] != *b"78")
}

fn is_pending(service: [u8; 2], message: &[u8]) -> bool {
    is_negative(service, message) && message[4..] == *b"78"
}

fn is_positive(service: [u8; 2], message: &[u8]) -> bool {
    let first = byte(message, 0);
    first == byte(&service, 0) + 0x40 && first != 0x7F
}

fn is_negative(service: [u8; 2], message: &[u8]) -> bool {
    message.len() == 6 && message[..2] == *b"7F" && message[2..4] == service
}
