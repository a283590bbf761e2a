//! tests/recorder.rs: what tests/run-recorder asks of recorder/evc_calls.rs, by the words of
//! tests/recorder.c: `all`, `names`, `wrong`, `run`, `large` and `unwritten`. And `steps` says what
//! is wrong with declarations of recorder/evc_record.rs.
#[path = "../recorder/evc_calls.rs"]
mod evc_calls;
#[path = "../recorder/evc_record.rs"]
mod evc_record;

use evc_calls::{Call, Clock, Fault, Record, Reply, Worker};
use std::sync::atomic::{AtomicU64, Ordering::SeqCst};
use std::thread;
use std::time::Duration;

const LIMIT: u64 = 281_474_976_710_655;
const NUMBER_MAX: u64 = 999_999_999_999_999_999;

fn says(written: Result<(), Fault>) -> Result<(), Fault> {
    match written {
        Ok(()) => println!("|"),
        Err(fault) => println!("|{fault}"),
    }
    Ok(())
}

fn clock(word: &str) -> Clock {
    match word {
        "tsc" => Clock::Tsc,
        "monotonic" => Clock::Monotonic,
        "tsc_bare" => Clock::TscBare,
        "monotonic_bare" => Clock::MonotonicBare,
        _ => Clock::Counter,
    }
}

/// Each call once.
fn try_all(word: &str, out: &str) -> Result<(), Fault> {
    let mut record = Record::new(clock(word))?;
    let (mut a, mut b) = (record.worker("a", 20)?, record.worker("b", 20)?);
    let mut c = record.worker("c", 20)?;
    let (e, t) = (record.eventcount("E", 3)?, record.sequencer("T")?);
    let (x, r) = (record.cells("X", 2)?, record.semaphore("R", 1)?);
    let s = record.semaphore("S", 2)?;
    record.both()?;
    let d = record.database("D", 7, &["a", "b"])?;
    let buffer = record.buffer("B", 1, &["a"])?;
    let values = [1, 2, 3, 4, 5, 0, NUMBER_MAX];
    c.invoke(Call::Read(e));
    a.call(Call::Advance(e), || Reply::Done);
    c.respond(&Reply::Number(4));
    c.call(Call::Await(e, 9), || Reply::Timeout);
    c.call(Call::Await(e, 4), || Reply::Number(4));
    c.call(Call::Await(e, 2), || Reply::Done);
    a.call(Call::Ticket(t), || Reply::Number(0));
    a.invoke(Call::Put(x, 1, 7));
    b.invoke(Call::Get(x, 1));
    a.respond(&Reply::Done);
    b.respond(&Reply::Number(7));
    a.call(Call::PBoth(r, s), || Reply::Done);
    a.call(Call::V(r), || Reply::Done);
    b.call(Call::P(r), || Reply::Done);
    b.call(Call::P(r), || Reply::Timeout);
    a.call(Call::Write(d, &values), || Reply::Done);
    c.call(Call::Snapshot(d), || Reply::Values(values.to_vec()));
    a.call(Call::Produce(buffer, 7), || Reply::Done);
    a.call(Call::Produce(buffer, 8), || Reply::Timeout);
    b.call(Call::Consume(buffer), || Reply::Number(7));
    c.call(Call::Consume(buffer), || Reply::Timeout);
    b.invoke(Call::P(r));
    says(record.write(out))
}

// Declarations.

fn declares(
    what: &str,
    workers: usize,
    declare: impl FnOnce(&mut Record) -> Result<(), Fault>,
) -> Result<(), Fault> {
    let mut record = Record::new(Clock::Counter)?;
    for worker in 0..workers {
        record.worker(&format!("w{worker}"), 1)?;
    }
    match declare(&mut record) {
        Ok(()) => println!("{what}: 1 |"),
        Err(fault) => println!("{what}: 0 |{fault}"),
    }
    Ok(())
}

fn late_object(record: &mut Record) -> Result<(), Fault> {
    let mut a = record.worker("a", 1)?;
    let e = record.eventcount("E", 0)?;
    a.call(Call::Advance(e), || Reply::Done);
    record.sequencer("T").map(|_| ())
}

fn try_names() -> Result<(), Fault> {
    let names = [
        "a",
        "A_9",
        "abcdefghijklmnop",
        "",
        "9a",
        "_a",
        "a-b",
        "a?",
        "abcdefghijklmnopq",
        "p",
        "v",
        "done",
        "workers",
    ];
    for name in names {
        declares("worker", 0, |it| it.worker(name, 1).map(|_| ()))?;
    }
    declares("16 workers", 16, |_| Ok(()))?;
    declares("17 workers", 16, |it| it.worker("a", 1).map(|_| ()))?;
    declares("worker twice", 2, |it| it.worker("w1", 1).map(|_| ()))?;
    declares("object as worker", 2, |it| it.sequencer("w1").map(|_| ()))?;
    declares("object p", 2, |it| it.semaphore("p", 1).map(|_| ()))?;
    declares("both twice", 2, |it| it.both().and_then(|()| it.both()))?;
    declares("from", 2, |it| it.eventcount("E", LIMIT).map(|_| ()))?;
    declares("from", 2, |it| it.eventcount("E", LIMIT + 1).map(|_| ()))?;
    declares("0 cells", 2, |it| it.cells("X", 0).map(|_| ()))?;
    declares("257 cells", 2, |it| it.cells("X", 257).map(|_| ()))?;
    declares("units", 2, |it| it.semaphore("S", 1_000_001).map(|_| ()))?;
    try_writers()?;
    try_places()
}

fn try_writers() -> Result<(), Fault> {
    let writers: [(&str, &[&str]); 5] = [
        ("database", &["w0"]),
        ("all write", &["w0", "w1"]),
        ("none writes", &[]),
        ("unknown writer", &["w0", "w2"]),
        ("writer twice", &["w0", "w0"]),
    ];
    for (what, named) in writers {
        declares(what, 2, |it| it.database("D", 2, named).map(|_| ()))?;
    }
    declares("buffer", 2, |it| it.buffer("B", 256, &["w1"]).map(|_| ()))?;
    declares("none consumes", 2, |it| it.buffer("B", 2, &["w0", "w1"]).map(|_| ()))?;
    declares("257 items", 2, |it| it.buffer("B", 257, &["w0"]).map(|_| ()))
}

fn try_places() -> Result<(), Fault> {
    declares("300 cells", 2, |it| {
        ["A", "B", "C"].iter().try_for_each(|name| it.cells(name, 100).map(|_| ()))
    })?;
    declares("33 eventcounts", 2, |it| {
        (0..33).try_for_each(|number| it.eventcount(&format!("E{number}"), 0).map(|_| ()))
    })?;
    declares("late worker", 1, |it| {
        it.eventcount("E", 0).and_then(|_| it.worker("b", 1)).map(|_| ())
    })?;
    declares("late object", 0, late_object)?;
    declares("no workers", 0, |it| it.sequencer("T").map(|_| ()))?;
    declares("no room", 0, |it| it.worker("a", 0).map(|_| ()))
}

/// Makes one wrong use, after one right call.
fn try_wrong(number: usize, out: &str) -> Result<(), Fault> {
    let mut record = Record::new(Clock::Counter)?;
    let (mut a, mut b) = (record.worker("a", 10)?, record.worker("b", 10)?);
    let (e, x) = (record.eventcount("E", 0)?, record.cells("X", 2)?);
    let (s, d) = (record.semaphore("S", 1)?, record.database("D", 2, &["b"])?);
    let buffer = record.buffer("B", 2, &["b"])?;
    a.call(Call::Advance(e), || Reply::Done);
    match number {
        0 => {
            a.invoke(Call::Read(e));
            a.invoke(Call::Read(e));
        }
        1 => a.respond(&Reply::Done),
        5 => a.invoke(Call::Get(x, 2)),
        6 => a.invoke(Call::Await(e, NUMBER_MAX + 1)),
        7 => b.invoke(Call::Write(d, &[0, NUMBER_MAX + 1])),
        8 => a.invoke(Call::Write(d, &[0, 0])),
        9 => b.invoke(Call::Snapshot(d)),
        10 => drop(a.call(Call::Read(e), || Reply::Done)),
        11 => drop(a.call(Call::Advance(e), || Reply::Timeout)),
        12 => drop(a.call(Call::Snapshot(d), || Reply::Number(0))),
        13 => drop(a.call(Call::Read(e), || Reply::Values(vec![0, 0]))),
        14 => a.invoke(Call::PBoth(s, s)),
        15 => a.invoke(Call::Produce(buffer, 7)),
        16 => b.invoke(Call::Consume(buffer)),
        17 => drop(a.call(Call::Consume(buffer), || Reply::Done)),
        18 => drop(a.call(Call::Consume(buffer), || Reply::Number(NUMBER_MAX + 1))),
        19 => drop(a.call(Call::Snapshot(d), || Reply::Values(vec![0, NUMBER_MAX + 1]))),
        _ => (),
    }
    b.call(Call::Read(e), || Reply::Number(1));
    says(record.write(out))
}

extern "C" {
    fn raise(signal: i32) -> i32;
}

/// How many threads have ended or hang.
static ENDED: AtomicU64 = AtomicU64::new(0);

/// What one of four threads does on a counter.
fn run(mut w: Worker, number: u64, kind: &str, e: evc_calls::Eventcount, count: &AtomicU64) {
    for k in 0..4000 {
        if k == 2000 && number == 2 && kind == "abort" {
            w.invoke(Call::Advance(e));
            count.fetch_add(1, SeqCst);
            std::process::abort();
        }
        if k == 2000 && number == 2 && kind == "kill" {
            // SAFETY: it takes a number, and this process ends.
            unsafe { raise(9) };
        }
        if k == 2000 && number == 2 && kind == "hang" {
            w.invoke(Call::Await(e, 1_000_000));
            ENDED.fetch_add(1, SeqCst);
            loop {
                thread::park();
            }
        }
        if (k + number) % 2 == 1 {
            w.call(Call::Advance(e), || {
                let is_lost = kind == "lossy" && k % 100 == 99;
                count.fetch_add(if is_lost { 0 } else { 1 }, SeqCst);
                Reply::Done
            });
        } else {
            w.call(Call::Read(e), || Reply::Number(count.load(SeqCst)));
        }
    }
    ENDED.fetch_add(1, SeqCst);
}

fn run_four(record: &mut Record, kind: &str, out: &str) -> Result<(), Fault> {
    let room = |number| if kind == "full" && number == 1 { 1000 } else { 4000 };
    let workers = (0..4)
        .map(|it| record.worker(&format!("w{it}"), room(it)))
        .collect::<Result<Vec<_>, _>>()?;
    let (e, count) = (record.eventcount("E", 0)?, &AtomicU64::new(0));
    thread::scope(|threads| {
        for (w, number) in workers.into_iter().zip(0..) {
            threads.spawn(move || run(w, number, kind, e, count));
        }
        while kind == "hang" && ENDED.load(SeqCst) < 4 {
            thread::yield_now();
        }
        if kind == "hang" {
            record.watch(Duration::from_millis(500), out);
        }
    });
    Ok(())
}

fn try_run(clock: Clock, kind: &str, out: &str, file: Option<&str>) -> Result<(), Fault> {
    let mut record = match file {
        Some(path) => Record::in_file(clock, path)?,
        None => Record::new(clock)?,
    };
    run_four(&mut record, kind, out)?;
    says(record.write(out))
}

fn try_large(out: &str) -> Result<(), Fault> {
    let mut record = Record::new(Clock::Counter)?;
    let mut a = record.worker("a", 53 * 14000)?;
    record.worker("b", 1)?;
    let d = record.database("D", 256, &["a"])?;
    for _ in 0..14000 {
        a.call(Call::Write(d, &[NUMBER_MAX; 256]), || Reply::Done);
    }
    says(record.write(out))
}

fn try_unwritten(out: &str) -> Result<(), Fault> {
    let mut record = Record::new(Clock::Counter)?;
    run_four(&mut record, "right", out)?;
    says(record.write("/dev/full"))?;
    says(record.write("/nowhere/x.calls"))?;
    says(record.write(out))
}

fn try_steps() {
    let declared: [(&[&str], &[&str]); 9] = [
        (&["a"], &["eventcount E signal a", "both use a"]),
        (&["a", "9"], &[]),
        (&["v"], &[]),
        (&["a", "b", "a"], &[]),
        (&["a"], &["cells X 1 write a", "sequencer X take a"]),
        (&["a"], &["cells a 1 write a"]),
        (&["a"], &["both use a", "both use a"]),
        (&["a"], &["counter C signal a"]),
        (&["a"], &["sequencer  take a"]),
    ];
    for (workers, objects) in declared {
        let fault = evc_record::Record::new(9, workers, objects).fault();
        println!("{}", fault.map_or("no fault".into(), |it| it.to_string()));
    }
}

fn main() {
    let words: Vec<String> = std::env::args().skip(1).collect();
    let words: Vec<&str> = words.iter().map(|it| it.as_str()).collect();
    let tried = match words[..] {
        ["all", word, out] => try_all(word, out),
        ["names"] => try_names(),
        ["steps"] => Ok(try_steps()),
        ["wrong", number, out] => try_wrong(number.parse().unwrap_or(99), out),
        ["run", word, kind, out] => try_run(clock(word), kind, out, None),
        ["run", word, kind, out, file] => try_run(clock(word), kind, out, Some(file)),
        ["large", out] => try_large(out),
        ["unwritten", out] => try_unwritten(out),
        _ => std::process::exit(2),
    };
    if let Err(fault) = tried {
        println!("|{fault}");
        std::process::exit(1);
    }
}
