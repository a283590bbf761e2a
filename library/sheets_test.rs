//! A test of one's own code: record what it does, check the record in memory, and fail with the checker's note.
//!
//! Two threads count sheets, each by a counter of its own, and then the number of sheets is read. `a_lost_sheet` plants
//! a bug: one thread records a sheet that it doesn't count.
mod evc;
#[path = "../recorder/evc_record.rs"]
mod evc_record;

use evc::Fault;
use evc_record::{Record, Reply};
use std::sync::atomic::{AtomicU64, Ordering::SeqCst};
use std::thread;

/// Runs the two threads, and returns the trace. The thread of `press2` counts so many of its 1000 sheets.
fn trace_of(counted: u64) -> Vec<u8> {
    let objects = ["eventcount Sheets signal press1 press2 observe watcher"];
    let record = Record::new(10_000, &["press1", "press2", "watcher"], &objects);
    let sheets = [AtomicU64::new(0), AtomicU64::new(0)];
    thread::scope(|scope| {
        for (press, component, counted) in [("press1", 0, 1000), ("press2", 1, counted)] {
            let (record, sheets) = (&record, &sheets);
            scope.spawn(move || {
                for i in 0..1000 {
                    record.step(press, "advance Sheets", || {
                        sheets[component].fetch_add(u64::from(i < counted), SeqCst);
                        Reply::Done
                    });
                }
            });
        }
    });
    let mut sum = 0;
    record.step("watcher", "read Sheets", || {
        sum += sheets[0].load(SeqCst);
        Reply::Pending
    });
    record.step("watcher", "go", || Reply::Number(sum + sheets[1].load(SeqCst)));
    record.bytes().expect("a whole record")
}

#[test]
fn no_sheet_is_lost() {
    if let Err(fault) = evc::check(&trace_of(1000)) {
        panic!("{fault}");
    }
}

#[test]
fn a_lost_sheet() {
    let note = "line 2007: wrong reply, right is 2000\n".to_string();
    assert_eq!(evc::check(&trace_of(999)), Err(Fault::Refused(note)));
}

#[test]
fn the_other_calls() {
    let trace = trace_of(1000);
    let upgraded = evc::upgrade(&trace).expect("a trace");
    assert_eq!(upgraded.as_bytes()[12..], trace[12..]);
    assert_eq!(evc::check(upgraded.as_bytes()), evc::check(&trace));
    assert_eq!(evc::audit(&trace), Ok("evc-audit 1\nend\n".to_string()));
    let script = b"evc-script 1\nlimit 10\nworkers a\neventcount E signal a\nworker a\nadvance E\nend\nschedule a\n";
    let simulated = evc::sim(script).expect("a script");
    assert_eq!(simulated.outcomes, "outcome a finished\n");
    assert!(simulated.trace.ends_with("run\na advance E = done\nend\n"));
    assert_eq!(evc::sim(b"evc-sc"), Err(Fault::Refused("line 1: 1 BadHeader\n".to_string())));
    assert_eq!(evc::version(), 2);
}
