//! The words of a run.

use std::path::PathBuf;

use crate::fault::Fault;
use crate::identifier::{Identifier, Sides};

const USAGE: &str = "usage: rival normalise|list [--tester ID] [--unit ID] [--limit BYTES] [LOG]";
const MOST_LIMIT: u64 = 1 << 40;

pub enum Job {
    Normalise,
    List,
}

pub struct Plan {
    pub job: Job,
    pub sides: Sides,
    pub limit: u64,
    pub log: Option<PathBuf>,
}

impl Plan {
    pub fn new(mut words: impl Iterator<Item = String>) -> Result<Plan, Fault> {
        let job = match words.next().as_deref() {
            None | Some("normalise") => Job::Normalise,
            Some("list") => Job::List,
            Some(_) => return Err(Fault::Words(USAGE)),
        };
        let (mut tester, mut unit) = ("7E0".to_string(), "7E8".to_string());
        let (mut limit, mut log) = (1 << 30, None);
        while let Some(word) = words.next() {
            let mut value = || words.next().ok_or(Fault::Words(USAGE));
            match word.as_str() {
                "--tester" => tester = value()?,
                "--unit" => unit = value()?,
                "--limit" => limit = value()?.parse().map_err(|_| Fault::Words(USAGE))?,
                _ if word.starts_with('-') || log.is_some() => return Err(Fault::Words(USAGE)),
                _ => log = Some(PathBuf::from(word)),
            }
        }
        let sides = Sides::new(identifier(&tester)?, identifier(&unit)?)?;
        if limit == 0 || limit > MOST_LIMIT {
            return Err(Fault::Words("limit out of range"));
        }
        Ok(Plan { job, sides, limit, log })
    }
}

fn identifier(text: &str) -> Result<Identifier, Fault> {
    Identifier::spelled(text.as_bytes()).ok_or(Fault::Words("identifier is not three or eight hexadecimal digits"))
}
