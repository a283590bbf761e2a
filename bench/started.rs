//! Starts a program, waits for its end, and prints a line on standard error: its status, the microseconds of CPU time in user
//! code and in the system, and its peak memory in KiB. The program's own standard error is discarded.
//!
//!     started PROGRAM [WORD ..]
//!
//! A process counts as its own the memory of what it was started from, so a bench that takes more than it measures can't start it.

use std::env;
use std::mem;
use std::process::{Command, Stdio};

#[repr(C)]
struct Time {
    seconds: i64,
    micros: i64,
}

/// The C library's `struct rusage`, with its first fields by name.
#[repr(C)]
struct Usage {
    user: Time,
    system: Time,
    peak: i64,
    others: [i64; 13],
}

unsafe extern "C" {
    fn wait4(child: i32, status: *mut i32, options: i32, usage: *mut Usage) -> i32;
}

fn main() {
    let mut words = env::args_os().skip(1);
    let program = words.next().expect("a program");
    let child = Command::new(program).args(words).stderr(Stdio::null()).spawn().expect("it starts");
    let mut status = 0;
    // Safety: all of these fields are numbers.
    let mut usage: Usage = unsafe { mem::zeroed() };
    // Safety: both variables live until the call returns, and have the layouts that the C library expects.
    let ended = unsafe { wait4(child.id() as i32, &mut status, 0, &mut usage) };
    assert_eq!(ended, child.id() as i32);
    let micros = |time: &Time| time.seconds * 1_000_000 + time.micros;
    eprintln!("{status} {} {}", micros(&usage.user) + micros(&usage.system), usage.peak);
}
