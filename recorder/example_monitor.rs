//! Four threads that would not end by themselves, judged while they run.
//!
//!     rustc -O --edition 2021 example_monitor.rs
//!     example_monitor SECONDS [lost]
//!
//! The second word plants a bug. The judge is the program in EVC_CALLS, or `evc-calls` on PATH. The
//! recorder and the monitor are not proved.
mod evc_calls;
mod evc_monitor;

use evc_calls::{Call, Clock, Eventcount, Record, Reply, Worker};
use evc_monitor::{by_program, Monitor};
use std::sync::atomic::{AtomicBool, AtomicU64, Ordering::SeqCst};
use std::thread;
use std::time::{Duration, Instant};

static COUNT: AtomicU64 = AtomicU64::new(0);
static HAS_ENDED: AtomicBool = AtomicBool::new(false);

fn run(mut w: Worker, e: Eventcount, has_bug: bool) {
    while !HAS_ENDED.load(SeqCst) {
        thread::sleep(Duration::from_micros(10));
        w.call(Call::Advance(e), || {
            let seen = COUNT.load(SeqCst);
            if has_bug {
                thread::yield_now(); // others may come in between
                COUNT.store(seen + 1, SeqCst);
            } else {
                COUNT.fetch_add(1, SeqCst);
            }
            Reply::Done
        });
        w.call(Call::Read(e), || Reply::Number(COUNT.load(SeqCst)));
    }
}

fn main() -> Result<(), Box<dyn std::error::Error>> {
    let words: Vec<String> = std::env::args().skip(1).collect();
    let seconds = words.first().map_or(Ok(1), |it| it.parse())?;
    let mut record = Record::new(Clock::Counter)?;
    let worker = |name| record.worker(name, 4096);
    let workers = ["a", "b", "c", "d"].map(worker);
    let e = record.eventcount("E", 0)?;
    let (monitor, start) = (Monitor::start(record, by_program())?, Instant::now());
    let mut threads = vec![];
    for worker in workers {
        let (w, has_bug) = (worker?, words.len() > 1);
        threads.push(thread::spawn(move || run(w, e, has_bug)));
    }
    while start.elapsed() < Duration::from_secs(seconds) && !monitor.is_over() {
        thread::sleep(Duration::from_millis(100));
    }
    HAS_ENDED.store(true, SeqCst);
    threads.into_iter().for_each(|it| drop(it.join()));
    match monitor.stop() {
        Ok(right) => println!("right: {} events", right.events),
        Err(wrong) => {
            println!("{wrong}");
            std::process::exit(1);
        }
    }
    Ok(())
}
