//! Four threads use an eventcount, a sequencer and a lock, all their own, and record their calls.
//!
//!     example_calls FILE [lost|twice|early|lock]
//!
//! The second word plants a bug, which `evc-calls check FILE` finds. The recorder is not proved.
mod evc_calls;

use evc_calls::{Call, Clock, Record, Reply};
use std::sync::atomic::{AtomicU64, Ordering::SeqCst};
use std::thread::{scope, sleep, yield_now};
use std::time::Duration;

fn linger() {
    sleep(Duration::from_micros(20));
}

/// Returns a number and adds one. The bug loads and stores, and others come in between.
fn add(number: &AtomicU64, has_bug: bool) -> u64 {
    if !has_bug {
        return number.fetch_add(1, SeqCst);
    }
    let seen = number.load(SeqCst);
    linger();
    number.store(seen + 1, SeqCst);
    seen
}

/// Takes the lock. The bug tests, and sets later.
fn lock(held: &AtomicU64, has_bug: bool) -> Reply {
    while if has_bug { held.load(SeqCst) } else { held.swap(1, SeqCst) } > 0 {
        yield_now();
    }
    if has_bug {
        linger();
        held.store(1, SeqCst);
    }
    Reply::Done
}

fn main() -> Result<(), Box<dyn std::error::Error>> {
    let words: Vec<String> = std::env::args().collect();
    let has = |bug: &str| words.get(2).is_some_and(|it| it == bug);
    let mut record = Record::new(Clock::Counter)?;
    let mut workers = vec![];
    for name in ["a", "b", "c", "d"] {
        workers.push(record.worker(name, 1200)?);
    }
    let (e, t) = (record.eventcount("E", 0)?, record.sequencer("T")?);
    let s = record.semaphore("S", 1)?; // the lock: p takes it, v lets go
    let [count, next, held] = [0; 3].map(AtomicU64::new);
    let is_reached = |threshold| count.load(SeqCst) + has("early") as u64 >= threshold;
    let run = |mut w: evc_calls::Worker| {
        for _ in 0..200 {
            w.call(Call::Advance(e), || (add(&count, has("lost")), Reply::Done).1);
            let seen = w.call(Call::Read(e), || Reply::Number(count.load(SeqCst)));
            let threshold = if let Reply::Number(seen) = seen { seen + 1 } else { 1 };
            w.call(Call::Await(e, threshold), || {
                // (it gives up after some looks)
                let is_there = (0..20).any(|_| (yield_now(), is_reached(threshold)).1);
                if is_there { Reply::Done } else { Reply::Timeout }
            });
            w.call(Call::Ticket(t), || Reply::Number(add(&next, has("twice"))));
            w.call(Call::P(s), || lock(&held, has("lock")));
            linger();
            w.call(Call::V(s), || (held.store(0, SeqCst), Reply::Done).1);
        }
    };
    scope(|threads| workers.into_iter().for_each(|w| drop(threads.spawn(|| run(w)))));
    Ok(record.write(words.get(1).map_or("example.calls", |it| it))?)
}
