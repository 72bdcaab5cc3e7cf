//! A rival of `udsnorm normalise` and `udsnorm list`: the same bytes, texts and statuses, written without contracts to be as
//! fast as plain Rust without unsafe code can be. It is a yardstick of `bench/`, and no part of the product.

mod canonical;
mod fault;
mod frame;
mod grammar;
mod identifier;
mod lanes;
mod listing;
mod log;
mod names;
mod order;
mod plain;
mod reception;
mod session;
mod words;

use std::fs::File;
use std::io::{self, Read, Write};
use std::os::fd::AsFd;
use std::process::ExitCode;

use canonical::Lines;
use fault::Fault;
use listing::Listing;
use log::Log;
use order::Sink;
use session::Session;
use words::{Job, Plan};

fn main() -> ExitCode {
    match Plan::new(std::env::args().skip(1)).and_then(|plan| run(&plan)) {
        Ok(()) => ExitCode::SUCCESS,
        Err(fault) => {
            // Where even this can't be written, the status still tells.
            let _ = writeln!(io::stderr(), "{fault}");
            ExitCode::from(fault.status())
        }
    }
}

fn run(plan: &Plan) -> Result<(), Fault> {
    let input = match &plan.log {
        Some(path) => File::open(path).map_err(|_| Fault::Read)?,
        None => duplicate(io::stdin(), Fault::Read)?,
    };
    let out = duplicate(io::stdout(), Fault::Write)?;
    let mut log = Log::new(input, plan.limit);
    match plan.job {
        Job::Normalise => normalise(&mut log, Session::new(plan.sides, Lines::new(out, &plan.sides, plan.limit))),
        Job::List => list(&mut log, Session::new(plan.sides, Listing::new(out, &plan.sides, plan.limit))),
    }
}

/// Standard input or output without the buffer that the library puts before it.
fn duplicate(stream: impl AsFd, fault: Fault) -> Result<File, Fault> {
    stream.as_fd().try_clone_to_owned().map(File::from).map_err(|_| fault)
}

/// Writes each message whose place is known, also where the log is refused or can't be read on.
fn normalise<R: Read, W: Write>(log: &mut Log<R>, mut session: Session<Lines<W>>) -> Result<(), Fault> {
    let read = read_all(log, &mut session, Lines::flush);
    session.sink.flush()?;
    read?;
    session.sink.finish()
}

fn list<R: Read, W: Write>(log: &mut Log<R>, mut session: Session<Listing<W>>) -> Result<(), Fault> {
    read_all(log, &mut session, |_| Ok(()))?;
    session.sink.finish()
}

/// Reads a log to its end, or up to what refuses it. Before more is read, what is known is handed out.
fn read_all<R: Read, S: Sink>(
    log: &mut Log<R>,
    session: &mut Session<S>,
    mut hand_out: impl FnMut(&mut S) -> Result<(), Fault>,
) -> Result<(), Fault> {
    loop {
        hand_out(&mut session.sink)?;
        let has_more = log.fill()?;
        let (text, filled) = log.text();
        let used = session.read(text, filled)?;
        log.use_up(used);
        session.refuse_front(log.rest())?;
        if !has_more {
            break;
        }
    }
    if log.is_longer {
        return Err(Fault::LogLimit);
    }
    if !log.rest().is_empty() {
        session.read_last(log.rest())?;
    }
    session.finish()
}
