//! The two sides of a session, and their identifiers.

use crate::fault::Fault;
use crate::lanes;

#[derive(Clone, Copy, PartialEq, Eq, Debug)]
pub enum Direction {
    Tester,
    Unit,
}

impl Direction {
    pub fn other(self) -> Direction {
        match self {
            Direction::Tester => Direction::Unit,
            Direction::Unit => Direction::Tester,
        }
    }
}

/// A standard identifier has three digits in a log, an extended one has eight.
#[derive(Clone, Copy, PartialEq, Eq, Debug)]
pub enum Identifier {
    Standard(u32),
    Extended(u32),
}

impl Identifier {
    /// The identifier that exactly three or eight digits spell, as large as it may be.
    pub fn spelled(text: &[u8]) -> Option<Identifier> {
        let is_spelled = text.iter().all(|&byte| lanes::digit(byte) != lanes::NO_DIGIT);
        match text.len() {
            3 if is_spelled => Some(Identifier::Standard(lanes::number(text))),
            8 if is_spelled => Some(Identifier::Extended(lanes::number(&text[..4]) << 16 | lanes::number(&text[4..]))),
            _ => None,
        }
    }

    pub fn text(self) -> String {
        match self {
            Identifier::Standard(value) => format!("{value:03X}"),
            Identifier::Extended(value) => format!("{value:08X}"),
        }
    }

    fn is_in_range(self) -> bool {
        match self {
            Identifier::Standard(value) => value <= 0x7FF,
            Identifier::Extended(value) => value <= 0x1FFF_FFFF,
        }
    }
}

/// The identifiers of the tester and of the unit.
#[derive(Clone, Copy)]
pub struct Sides {
    pub tester: Identifier,
    pub unit: Identifier,
}

impl Sides {
    pub fn new(tester: Identifier, unit: Identifier) -> Result<Sides, Fault> {
        if !tester.is_in_range() || !unit.is_in_range() {
            return Err(Fault::Words("identifier out of range"));
        }
        if tester == unit {
            return Err(Fault::Words("tester and unit have the same identifier"));
        }
        Ok(Sides { tester, unit })
    }

    /// The side that sends frames of this identifier, if one does.
    pub fn direction_of(&self, identifier: Identifier) -> Option<Direction> {
        if identifier == self.tester {
            Some(Direction::Tester)
        } else if identifier == self.unit {
            Some(Direction::Unit)
        } else {
            None
        }
    }
}
