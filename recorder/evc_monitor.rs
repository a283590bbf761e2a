//! Judges the calls of a program that does not end, while it runs.
//!
//! Plain Rust, this module and evc_calls.rs, no dependency. Nothing of it is proved: it passes the
//! history to a judge, line by line.
//!
//!     let mut record = Record::new(Clock::Counter)?; // declared as usual, without a file
//!     let mut a = record.worker("a", 4096)?;
//!     let monitor = Monitor::start(record, by_program())?;
//!     // .. the threads record their calls
//!     monitor.stop()?; // each line was accepted, and the end
//!
//! Each worker's buffer is then a ring. A thread of the monitor empties the rings in the order of
//! the stamps, makes lines of the events, and gives them to the judge, one after another, with
//! `end` at the stop. Its memory does not grow. A worker whose ring is full waits, between two of
//! its calls: so give each room for what it calls within some milliseconds, 4096 calls or more.
//!
//! A judge is a function. It is given a line with its LF; an error ends the judging. The calls go
//! on, unrecorded. The head of recorder/evc_monitor.h says more; the two do the same.
#![allow(dead_code)]

use super::evc_calls::{Fault, Merge, Record, Shared, TEXT_MAX};
use std::fmt;
use std::io::{BufWriter, Read, Write};
use std::process::{Child, ChildStdin, Command, Stdio};
use std::sync::atomic::{AtomicBool, Ordering::*};
use std::sync::Arc;
use std::thread::{self, JoinHandle};

/// A judge, which is called with each line.
pub type Judged = Result<(), Wrong>;

/// Why the judging ended before the stop, or with it.
#[derive(Clone, PartialEq, Eq)]
pub enum Wrong {
    /// The history is not linearizable: why.
    Refused(String),
    NoRecord(Fault),
    /// The judge has none: why.
    NoVerdict(String),
}

impl fmt::Display for Wrong {
    fn fmt(&self, f: &mut fmt::Formatter<'_>) -> fmt::Result {
        match self {
            Wrong::Refused(note) => write!(f, "REFUSED: {}", note.trim_end()),
            Wrong::NoRecord(fault) => write!(f, "no record: {fault}"),
            Wrong::NoVerdict(note) => write!(f, "no verdict: {}", note.trim_end()),
        }
    }
}

// (so that `unwrap` in a test shows the note as it is)
impl fmt::Debug for Wrong {
    fn fmt(&self, f: &mut fmt::Formatter<'_>) -> fmt::Result {
        fmt::Display::fmt(self, f)
    }
}

impl std::error::Error for Wrong {}

/// What was judged up to a stop.
#[derive(Clone, Debug, PartialEq, Eq)]
pub struct Right {
    pub events: u64,
    /// A line for each call that was pending.
    pub pending: Vec<String>,
}

/// A thread that judges a record.
pub struct Monitor {
    thread: JoinHandle<Result<Right, Wrong>>,
    ends: Arc<AtomicBool>,
}

impl Monitor {
    /// Begins to judge a record, after all is declared and before the first call: an error if
    /// there is no worker, if there was a call, or if the record is kept in a file.
    pub fn start(
        record: Record,
        judge: impl FnMut(&str) -> Judged + Send + 'static,
    ) -> Result<Monitor, Fault> {
        let shared = record.into_shared()?;
        shared.make_rings()?;
        let ends = Arc::new(AtomicBool::new(false));
        let is_to_end = ends.clone();
        let judges = move || {
            let result = judged(&shared, &is_to_end, judge);
            shared.end_rings();
            result
        };
        let thread = thread::Builder::new().spawn(judges).map_err(|_| Fault::NoMemory)?;
        Ok(Monitor { thread, ends })
    }

    /// Returns whether the judging has ended before the stop: `stop` then says why.
    pub fn is_over(&self) -> bool {
        self.thread.is_finished()
    }

    /// Judges what is left, and ends the history and the monitor. A call that has not returned
    /// stays pending.
    pub fn stop(self) -> Result<Right, Wrong> {
        self.ends.store(true, Release);
        let panicked = |_| Err(Wrong::NoVerdict("the judge panicked".into()));
        self.thread.join().unwrap_or_else(panicked)
    }
}

/// Gives all lines to a judge, until it returns an error or the monitor has to end.
fn judged(
    shared: &Shared,
    ends: &AtomicBool,
    mut judge: impl FnMut(&str) -> Judged,
) -> Result<Right, Wrong> {
    let heading = shared.heading();
    heading.split_inclusive('\n').try_for_each(&mut judge)?;
    let (mut merge, mut events) = (Merge::new(shared, heading.lines().count() + 1), 0);
    while !ends.load(Acquire) {
        let cut = shared.cut_now();
        events += batch(shared, &mut merge, cut, &mut judge)?;
    }
    let cut = shared.cut_now() + shared.skew + 1; // (another processor's clock may be ahead)
    events += batch(shared, &mut merge, cut, &mut judge)?;
    shared.measured_again().map_err(Wrong::NoRecord)?;
    judge("end\n")?;
    Ok(Right { events, pending: merge.pending() })
}

/// Gives all events before a stamp, and returns how many.
fn batch(
    shared: &Shared,
    merge: &mut Merge,
    limit: u64,
    judge: &mut impl FnMut(&str) -> Judged,
) -> Result<u64, Wrong> {
    let (cut, fault) = shared.least_cut(limit);
    let (mut line, mut events) = (String::new(), 0);
    merge.go_on(cut).map_err(Wrong::NoRecord)?;
    while merge.put_next(&mut line).map_err(Wrong::NoRecord)? {
        judge(&line)?;
        line.clear();
        events += 1;
    }
    fault.map_or(Ok(events), |it| Err(Wrong::NoRecord(it)))
}

/// Judges by `evc-calls check`, a process of its own: the program in EVC_CALLS, or on PATH. It
/// answers only at the end, and takes texts of at most 67108864 bytes: what comes after is not
/// judged.
pub fn by_program() -> impl FnMut(&str) -> Judged + Send {
    let mut program = Program::start();
    move |line| match &mut program {
        Ok(it) => it.line(line),
        Err(note) => Err(Wrong::NoVerdict(note.clone())),
    }
}

struct Program {
    child: Child,
    input: Option<BufWriter<ChildStdin>>,
    total: usize,
}

impl Program {
    fn start() -> Result<Program, String> {
        let program = std::env::var("EVC_CALLS").unwrap_or("evc-calls".into());
        let mut command = Command::new(&program);
        command.arg("check").stdin(Stdio::piped()).stdout(Stdio::null()).stderr(Stdio::piped());
        let started = command.spawn();
        let mut child = started.map_err(|_| format!("there is no program {program}"))?;
        let input = child.stdin.take().map(BufWriter::new);
        Ok(Program { child, input, total: 0 })
    }

    fn line(&mut self, line: &str) -> Judged {
        let is_last = line == "end\n" || self.total + line.len() + 4 > TEXT_MAX;
        self.total += line.len();
        match &mut self.input {
            Some(input) if !is_last => drop(input.write_all(line.as_bytes())), // (it may have ended)
            Some(_) => return self.verdict(),
            None => (),
        }
        Ok(())
    }

    /// Ends the program's text, and returns what it says.
    fn verdict(&mut self) -> Judged {
        if let Some(mut input) = self.input.take() {
            let _ = input.write_all(b"end\n").and_then(|()| input.flush());
        }
        let mut note = String::new();
        if let Some(notes) = &mut self.child.stderr {
            let _ = notes.read_to_string(&mut note);
        }
        match self.child.wait().ok().and_then(|it| it.code()) {
            Some(0) => Ok(()),
            Some(1) => Err(Wrong::Refused(note)),
            _ => Err(Wrong::NoVerdict(note)),
        }
    }
}
