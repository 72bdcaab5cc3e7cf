//! Why a run ends without an answer: the texts and exit statuses of `udsnorm`.

use std::collections::TryReserveError;
use std::fmt;

/// The most bytes of a message.
pub const MESSAGE_LIMIT: usize = 1_048_575;

#[derive(Debug)]
pub enum Fault {
    Words(&'static str),
    BadLine { line: u64, column: usize },
    Oversize { line: u64, announced: u32 },
    LogLimit,
    OutputLimit,
    Read,
    Write,
    Memory,
}

impl Fault {
    pub fn status(&self) -> u8 {
        match self {
            Fault::Words(_) => 2,
            Fault::BadLine { .. } | Fault::Oversize { .. } | Fault::LogLimit | Fault::OutputLimit => 3,
            Fault::Read | Fault::Write => 4,
            Fault::Memory => 5,
        }
    }
}

impl fmt::Display for Fault {
    fn fmt(&self, out: &mut fmt::Formatter) -> fmt::Result {
        match self {
            Fault::Words(text) => write!(out, "{text}"),
            Fault::BadLine { line, column } => write!(out, "line {line} column {column}: not a log line"),
            Fault::Oversize { line, announced } => {
                write!(out, "line {line}: {announced} bytes announced, the limit is {MESSAGE_LIMIT}")
            }
            Fault::LogLimit => write!(out, "log longer than the limit"),
            Fault::OutputLimit => write!(out, "canonical log longer than the limit"),
            Fault::Read => write!(out, "read failed"),
            Fault::Write => write!(out, "write failed"),
            Fault::Memory => write!(out, "out of memory"),
        }
    }
}

impl From<TryReserveError> for Fault {
    fn from(_: TryReserveError) -> Fault {
        Fault::Memory
    }
}
