//! Records what a program does with its own eventcounts and sequencers, as a trace for `evc check`.
//!
//! Plain Rust, this one module, no dependency; docs/RECORDING.md shows how it is used. Nothing of it
//! is proved: what it has written is judged by `evc check`.
//!
//!     let record = Record::new(1_000_000, &["a", "b"], &["eventcount E signal a observe b"]);
//!     // on the thread of worker a, around each atomic step of yours
//!     record.step("a", "advance E", || {
//!         count.fetch_add(1, SeqCst);
//!         Reply::Done
//!     });
//!     record.write("my.trace")?;
//!
//! The first fault is kept. After it your steps go on, unrecorded, and the text stays without its
//! last line, so that `evc check` calls it `unfinished`.
#![allow(dead_code)]

use std::fmt;
use std::fs;
use std::io::Write;
use std::path::Path;
use std::sync::{Mutex, MutexGuard};

/// The most bytes that a trace may have.
pub const TRACE_MAX: usize = 67_108_864;
const LINE_MAX: usize = 8192;
const END: &[u8] = b"end\n";

/// What a step returned.
#[derive(Clone, Copy, Debug, PartialEq, Eq)]
pub enum Reply {
    /// The step was an advance, a put or a hand.
    Done,
    /// The step did not end the read or await: a component is left, or the sum is below the
    /// threshold.
    Pending,
    /// The sum of a read or an await at its last step, a ticket, or the value of a get.
    Number(u64),
}

impl fmt::Display for Reply {
    fn fmt(&self, f: &mut fmt::Formatter<'_>) -> fmt::Result {
        match self {
            Reply::Done => f.write_str("done"),
            Reply::Pending => f.write_str("pending"),
            Reply::Number(number) => number.fmt(f),
        }
    }
}

/// Why a record is not whole.
#[derive(Clone, Copy, Debug, PartialEq, Eq)]
pub enum Fault {
    /// A step of a worker that was not declared.
    UnknownWorker,
    /// A line is too long or has a line feed.
    BadLine,
    /// The trace would have more than 67108864 bytes.
    TooLarge,
    NoMemory,
    /// The file could not be opened or written.
    NotWritten,
    /// A worker or an object has no name: a letter, and at most 15 letters, digits or underscores.
    BadName,
    ReservedWord,
    NameTaken,
}

impl fmt::Display for Fault {
    fn fmt(&self, f: &mut fmt::Formatter<'_>) -> fmt::Result {
        f.write_str(match self {
            Fault::UnknownWorker => "unknown worker",
            Fault::BadLine => "bad line",
            Fault::TooLarge => "too large",
            Fault::NoMemory => "no memory",
            Fault::NotWritten => "not written",
            Fault::BadName => "bad name",
            Fault::ReservedWord => "reserved word",
            Fault::NameTaken => "name taken",
        })
    }
}

impl std::error::Error for Fault {}

const RESERVED: &str = " advance await both buffer cells consume database done end eventcount \
    get go hand last limit observe p pboth pending produce put read repeat run schedule semaphore \
    sequencer signal snapshot take ticket use v worker workers write ";

/// Returns what is wrong with a name, if these others were declared before it.
fn fault_of_name(name: &str, others: &[&str]) -> Option<Fault> {
    let is_name = (1..=16).contains(&name.len())
        && name.starts_with(|it: char| it.is_ascii_alphabetic())
        && name.bytes().all(|it| it.is_ascii_alphanumeric() || it == b'_');
    match () {
        _ if !is_name => Some(Fault::BadName),
        _ if RESERVED.contains(&format!(" {name} ")) => Some(Fault::ReservedWord),
        _ if others.contains(&name) => Some(Fault::NameTaken),
        _ => None,
    }
}

/// Returns what is wrong with the first name that is wrong.
fn fault_of_names(workers: &[&str], objects: &[&str]) -> Option<Fault> {
    const KINDS: &str = " eventcount sequencer cells buffer database semaphore ";
    let (mut names, mut has_both): (Vec<&str>, bool) = (vec![], false);
    for worker in workers {
        if let Some(fault) = fault_of_name(worker, &names) {
            return Some(fault);
        }
        names.push(worker);
    }
    for object in objects {
        let mut words = object.split(' ');
        let (kind, name) = (words.next().unwrap_or(""), words.next().unwrap_or(""));
        let is_both = kind == "both" && name == "use";
        let fault = match () {
            _ if is_both => has_both.then_some(Fault::NameTaken),
            _ if kind.is_empty() || !KINDS.contains(&format!(" {kind} ")) => Some(Fault::BadLine),
            _ => fault_of_name(name, &names),
        };
        if fault.is_some() {
            return fault;
        }
        has_both |= is_both;
        names.push(name);
    }
    None
}

struct Text {
    bytes: Vec<u8>,
    fault: Option<Fault>,
}

impl Text {
    /// Adds a line, with its line feed, if the trace has room for it and for its last line.
    fn line(&mut self, line: &str) {
        if self.fault.is_some() {
            return;
        }
        if line.len() > LINE_MAX || line.contains('\n') {
            self.fault = Some(Fault::BadLine);
        } else if self.bytes.len() + line.len() + 1 + END.len() > TRACE_MAX {
            self.fault = Some(Fault::TooLarge);
        } else if self.bytes.try_reserve(line.len() + 1).is_err() {
            self.fault = Some(Fault::NoMemory);
        } else {
            self.bytes.extend_from_slice(line.as_bytes());
            self.bytes.push(b'\n');
        }
    }
}

/// What was done so far. It is shared by the threads of all workers.
pub struct Record {
    workers: Vec<String>,
    text: Mutex<Text>,
}

impl Record {
    /// Begins a record: the limit of each component and each sequencer, from 1 to 281474976710655
    /// (the trace has version 2); the workers; and the objects, each a line of docs/REFERENCE.md, as
    /// "sequencer T take a b".
    pub fn new(limit: u64, workers: &[&str], objects: &[&str]) -> Self {
        let mut text = Text { bytes: Vec::new(), fault: None };
        text.line("evc-trace 2");
        text.line(&format!("limit {limit}"));
        text.line(&format!("workers {}", workers.join(" ")));
        for object in objects {
            text.line(object);
        }
        text.line("run");
        text.fault = text.fault.or(fault_of_names(workers, objects));
        Record {
            workers: workers.iter().map(|it| it.to_string()).collect(),
            text: Mutex::new(text),
        }
    }

    /// Does one atomic step of a worker, under the record's lock, and records it with its reply.
    pub fn step(&self, worker: &str, act: &str, do_it: impl FnOnce() -> Reply) -> Reply {
        let mut text = self.lock();
        let reply = do_it();
        if self.workers.iter().any(|it| it == worker) {
            text.line(&format!("{worker} {act} = {reply}"));
        } else {
            text.fault.get_or_insert(Fault::UnknownWorker);
        }
        reply
    }

    /// Returns the first fault so far: right after `new`, what is wrong with a name.
    pub fn fault(&self) -> Option<Fault> {
        self.lock().fault
    }

    /// Ends the record, and returns the bytes of the trace.
    pub fn bytes(self) -> Result<Vec<u8>, Fault> {
        let (bytes, fault) = self.ended();
        fault.map_or(Ok(bytes), Err)
    }

    /// Ends the record, and writes the trace into a file: if there was a fault, the prefix up to
    /// it.
    pub fn write(self, path: impl AsRef<Path>) -> Result<(), Fault> {
        let (bytes, fault) = self.ended();
        let written = fs::File::create(path).and_then(|mut file| file.write_all(&bytes));
        match fault {
            Some(fault) => Err(fault),
            None => written.map_err(|_| Fault::NotWritten),
        }
    }

    fn ended(self) -> (Vec<u8>, Option<Fault>) {
        let mut text = self.text.into_inner().unwrap_or_else(|it| it.into_inner());
        if text.fault.is_none() {
            text.bytes.extend_from_slice(END); // (`line` has left room for it in the trace)
        }
        (text.bytes, text.fault)
    }

    // (if a step panicked, its line is missing: what follows is recorded, and the checker judges)
    fn lock(&self) -> MutexGuard<'_, Text> {
        self.text.lock().unwrap_or_else(|it| it.into_inner())
    }
}
