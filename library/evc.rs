//! `evc check`, `audit`, `upgrade` and `sim`, and `evc-calls check`, as calls, for bytes in memory, and monitors that judge
//! histories of calls line by line: safe Rust over libevc.a.
//!
//!     rustc --edition 2021 --test my_test.rs -L FOLDER_OF_LIBEVC -l static=evc
//!
//! Plain Rust, this one module, no dependency. docs/LIBRARY.md says what is proved of the calls below it; of this
//! module nothing is. A call keeps nothing, so any threads may call at once; a `Monitor` keeps what it needs.
#![allow(dead_code)]

use std::fmt;

/// Why there is no text.
#[derive(Clone, Debug, PartialEq, Eq)]
pub enum Fault {
    /// The input is no trace or no script, or a group is not followed, or the schedule names a worker that has ended.
    /// Or the input is no history of calls, or one is not linearizable.
    /// The note says which, with a line feed at its end. (Of histories of calls the remarks on those before it come first.)
    Refused(String),
    /// A history of calls is not decided: the note says which object, and why.
    NotDecided(String),
    NoMemory,
}

impl fmt::Display for Fault {
    fn fmt(&self, f: &mut fmt::Formatter<'_>) -> fmt::Result {
        match self {
            Fault::Refused(note) | Fault::NotDecided(note) => f.write_str(note.trim_end()),
            Fault::NoMemory => f.write_str("no memory"),
        }
    }
}

impl std::error::Error for Fault {}

/// What `sim` writes.
#[derive(Clone, Debug, PartialEq, Eq)]
pub struct Simulated {
    pub trace: String,
    /// A line for each worker, as `outcome a finished`.
    pub outcomes: String,
}

/// What `check_calls` writes of histories that are all linearizable.
#[derive(Clone, Debug, PartialEq, Eq)]
pub struct Ordered {
    /// An order of the calls of each history, with the totals.
    pub orders: String,
    /// A line for each await that is pending although the count had surely reached its threshold: a lost wake-up.
    pub remarks: String,
}

/// Checks a trace: returns the order of its completed calls, and the totals.
pub fn check(trace: &[u8]) -> Result<String, Fault> {
    answer(evc_check, trace, trace_room(trace), NOTES_ROOM).map(|(text, _)| text)
}

/// Checks histories of calls.
pub fn check_calls(calls: &[u8]) -> Result<Ordered, Fault> {
    let histories = calls.split(|it| *it == b'\n').filter(|it| *it == b"run").count();
    let room = trace_room(calls).saturating_add(histories.saturating_mul(16384));
    let notes_room = calls.len().saturating_add(histories.saturating_mul(4096)).saturating_add(NOTES_ROOM);
    answer(evc_calls_check, calls, room, notes_room).map(|(orders, remarks)| Ordered { orders, remarks })
}

/// Audits the buffers, databases and semaphores of a trace: returns what was done with them.
pub fn audit(trace: &[u8]) -> Result<String, Fault> {
    answer(evc_audit, trace, trace_room(trace), NOTES_ROOM).map(|(text, _)| text)
}

/// Returns the same trace in version 2 of the format.
pub fn upgrade(trace: &[u8]) -> Result<String, Fault> {
    answer(evc_upgrade, trace, trace.len(), NOTES_ROOM).map(|(text, _)| text)
}

/// Plays the schedule of a script.
pub fn sim(script: &[u8]) -> Result<Simulated, Fault> {
    let room = 44usize.saturating_mul(script.len()).saturating_add(64).min(8_000_000);
    answer(evc_sim, script, room, NOTES_ROOM).map(|(trace, outcomes)| Simulated { trace, outcomes })
}

/// What came to a monitor.
#[derive(Clone, Copy, Debug, PartialEq, Eq)]
#[repr(C)]
pub struct Load {
    /// How many histories have ended.
    pub histories: u64,
    /// How many calls were invoked.
    pub calls: u64,
    /// How many others were pending then, added up over all calls.
    pub others: u64,
}

/// Judges histories of calls line by line, as `evc-calls watch` does, in memory that does not grow with them; but the
/// text of one that declares cells, databases, or buffers with several producers or consumers is kept until its end.
///
///     let mut monitor = evc::Monitor::new()?;
///     for line in lines {
///         monitor.line(line)?;
///     }
///     let load = monitor.end()?;
///
/// A fault stays: each later call returns it again.
pub struct Monitor {
    // (zeros, in which the monitor is)
    place: Box<Place>,
    ended: bool,
}

const MONITOR_WORDS: usize = 1280;

#[repr(C, align(16))]
struct Place([u64; MONITOR_WORDS]);

impl Monitor {
    /// Opens a monitor, to which no line came yet.
    pub fn new() -> Result<Monitor, Fault> {
        // SAFETY: it takes nothing and touches nothing.
        if unsafe { evc_monitor_size() } > std::mem::size_of::<Place>() {
            return Err(Fault::NoMemory);
        }
        let mut place = Box::new(Place([0; MONITOR_WORDS]));
        // SAFETY: there is room for a monitor, and nothing else has the place.
        unsafe { evc_monitor_open(&mut *place) };
        Ok(Monitor { place, ended: false })
    }

    /// Judges the next line, given without its line feed.
    pub fn line(&mut self, line: &[u8]) -> Result<(), Fault> {
        assert!(!self.ended, "a line after the end");
        // SAFETY: the monitor is open, and the pointer is that of a slice, with its length.
        let status = unsafe { evc_monitor_line(&mut *self.place, line.as_ptr(), line.len()) };
        self.answer(status)
    }

    /// Ends the text: it was one of histories, and each is linearizable.
    pub fn end(&mut self) -> Result<Load, Fault> {
        assert!(!self.ended, "an end after the end");
        // SAFETY: the monitor is open.
        let status = unsafe { evc_monitor_end(&mut *self.place) };
        self.answer(status)?;
        self.ended = true;
        Ok(self.load())
    }

    /// Returns what came so far.
    pub fn load(&mut self) -> Load {
        let mut load = Load { histories: 0, calls: 0, others: 0 };
        // SAFETY: the monitor is open, or has ended.
        unsafe { evc_monitor_load(&mut *self.place, &mut load) };
        load
    }

    fn answer(&mut self, status: u8) -> Result<(), Fault> {
        if status == 0 {
            return Ok(());
        }
        let mut note = vec![0; NOTES_ROOM];
        // SAFETY: the monitor is open, and the pointer is that of a slice, with its length.
        let noted = unsafe { evc_monitor_note(&mut *self.place, note.as_mut_ptr(), note.len()) };
        note.truncate(noted);
        match status {
            1 => Err(Fault::Refused(string(note))),
            5 => Err(Fault::NotDecided(string(note))),
            _ => Err(Fault::NoMemory),
        }
    }
}

impl Drop for Monitor {
    fn drop(&mut self) {
        // SAFETY: it was opened, and is not used any more.
        unsafe { evc_monitor_close(&mut *self.place) };
    }
}

/// Returns the version: 1000 for each first number and 1 for each second.
pub fn version() -> u32 {
    // SAFETY: it takes nothing and touches nothing.
    unsafe { evc_version() }
}

const NOTES_ROOM: usize = 1024;

#[repr(C)]
struct Written {
    text: usize,
    notes: usize,
}

type Call = unsafe extern "C" fn(*const u8, usize, *mut u8, usize, *mut u8, usize, *mut Written) -> u8;

extern "C" {
    fn evc_check(trace: *const u8, length: usize, text: *mut u8, room: usize, notes: *mut u8, notes_room: usize, written: *mut Written) -> u8;
    fn evc_audit(trace: *const u8, length: usize, text: *mut u8, room: usize, notes: *mut u8, notes_room: usize, written: *mut Written) -> u8;
    fn evc_upgrade(trace: *const u8, length: usize, text: *mut u8, room: usize, notes: *mut u8, notes_room: usize, written: *mut Written) -> u8;
    fn evc_sim(script: *const u8, length: usize, text: *mut u8, room: usize, notes: *mut u8, notes_room: usize, written: *mut Written) -> u8;
    fn evc_calls_check(calls: *const u8, length: usize, text: *mut u8, room: usize, notes: *mut u8, notes_room: usize, written: *mut Written) -> u8;
    fn evc_monitor_open(monitor: *mut Place);
    fn evc_monitor_line(monitor: *mut Place, line: *const u8, length: usize) -> u8;
    fn evc_monitor_end(monitor: *mut Place) -> u8;
    fn evc_monitor_note(monitor: *mut Place, note: *mut u8, room: usize) -> usize;
    fn evc_monitor_load(monitor: *mut Place, load: *mut Load);
    fn evc_monitor_close(monitor: *mut Place);
    fn evc_monitor_size() -> usize;
    fn evc_version() -> u32;
}

/// Returns room enough for what is written of a trace.
fn trace_room(trace: &[u8]) -> usize {
    trace.len().saturating_mul(2).saturating_add(16384)
}

/// Makes a call with so much room, and with twice as much for as long as that was too little.
fn answer(call: Call, input: &[u8], mut room: usize, notes_room: usize) -> Result<(String, String), Fault> {
    loop {
        let mut text = zeros(room)?;
        let mut notes = zeros(notes_room)?;
        let mut written = Written { text: 0, notes: 0 };
        // SAFETY: the pointers are those of slices, with their lengths, and no two of them overlap.
        let status = unsafe {
            call(
                input.as_ptr(),
                input.len(),
                text.as_mut_ptr(),
                text.len(),
                notes.as_mut_ptr(),
                notes.len(),
                &mut written,
            )
        };
        text.truncate(written.text);
        notes.truncate(written.notes);
        match status {
            0 => return Ok((string(text), string(notes))),
            1 => return Err(Fault::Refused(string(notes))),
            5 => return Err(Fault::NotDecided(string(notes))),
            3 => room = room.checked_mul(2).ok_or(Fault::NoMemory)?.max(1),
            _ => return Err(Fault::NoMemory),
        }
    }
}

fn zeros(length: usize) -> Result<Vec<u8>, Fault> {
    let mut bytes = Vec::new();
    bytes.try_reserve_exact(length).map_err(|_| Fault::NoMemory)?;
    bytes.resize(length, 0);
    Ok(bytes)
}

// (texts and notes are ASCII)
fn string(bytes: Vec<u8>) -> String {
    String::from_utf8(bytes).unwrap_or_else(|it| String::from_utf8_lossy(it.as_bytes()).into_owned())
}
