//! tests/monitor.rs: what tests/run-recorder asks of recorder/evc_monitor.rs, by the words of
//! tests/monitor.c: KIND CLOCK CALLS OUT. KIND is right, lost, twice, misused or pending,
//! with -file or -stop after it if the judge is not `evc-calls`.
#[path = "../recorder/evc_calls.rs"]
mod evc_calls;
#[path = "../recorder/evc_monitor.rs"]
mod evc_monitor;

use evc_calls::{Call, Clock, Database, Eventcount, Record, Reply, Sequencer, Worker};
use evc_monitor::{Judged, Monitor, Right, Wrong};
use std::io::Write;
use std::sync::atomic::{AtomicU64, Ordering::SeqCst};
use std::sync::Arc;
use std::thread;

#[derive(Default)]
struct Objects {
    kind: String,
    count: AtomicU64,
    next: AtomicU64,
    calls_to_make: usize,
    memory_before: AtomicU64,
}

impl Objects {
    fn is(&self, kind: &str) -> bool {
        self.kind.contains(kind)
    }
}

/// Adds one. With a bug one call in 100 doesn't.
fn add(number: &AtomicU64, has_bug: bool, chance: u64) -> u64 {
    match has_bug && chance % 100 == 0 {
        true => number.load(SeqCst),
        false => number.fetch_add(1, SeqCst),
    }
}

fn call(it: &Objects, w: &mut Worker, number: usize, of: Names, chance: u64) {
    let (e, t, d) = of;
    match chance % 8 {
        0 if number == 0 => drop(w.call(Call::Write(d, &[1, 2, 3, 4, 5, 6, 7]), || Reply::Done)),
        0..=2 => drop(w.call(Call::Advance(e), || {
            add(&it.count, it.is("lost"), chance >> 8);
            Reply::Done
        })),
        3..=4 => {
            drop(w.call(Call::Ticket(t), || {
                Reply::Number(add(&it.next, it.is("twice"), chance >> 8))
            }))
        }
        _ => drop(w.call(Call::Read(e), || Reply::Number(it.count.load(SeqCst)))),
    }
}

type Names = (Eventcount, Sequencer, Database);

fn run(it: &Objects, mut w: Worker, number: usize, of: Names) {
    let mut chance = 0x9E37_79B9_7F4A_7C15u64.wrapping_mul(number as u64 + 1);
    for made in 0..it.calls_to_make {
        chance ^= chance << 13;
        chance ^= chance >> 7;
        chance ^= chance << 17;
        call(it, &mut w, number, of, chance >> 11);
        if it.is("misused") && number == 2 && made == 500 {
            w.respond(&Reply::Done);
        }
        if number == 0 && made == it.calls_to_make / 10 {
            it.memory_before.store(memory(), SeqCst);
        }
    }
    if it.is("pending") && number == 1 {
        w.invoke(Call::Await(of.0, 1_000_000_000));
    }
}

fn judge(kind: &str, out: &str) -> Box<dyn FnMut(&str) -> Judged + Send> {
    if kind.contains("file") {
        let mut file = std::io::BufWriter::new(std::fs::File::create(out).unwrap());
        return Box::new(move |line| {
            let written = file.write_all(line.as_bytes());
            let flushed = if line == "end\n" { file.flush() } else { Ok(()) };
            written.and(flushed).map_err(|it| Wrong::NoVerdict(it.to_string()))
        });
    }
    if kind.contains("stop") {
        let mut lines = 0;
        return Box::new(move |_| {
            lines += 1;
            if lines > 1000 {
                return Err(Wrong::NoVerdict(String::new()));
            }
            Ok(())
        });
    }
    Box::new(evc_monitor::by_program())
}

/// Returns the peak memory so far, in KB.
fn memory() -> u64 {
    let status = std::fs::read_to_string("/proc/self/status").unwrap_or_default();
    let line = status.lines().find(|it| it.starts_with("VmHWM"));
    line.and_then(|it| it.split_whitespace().nth(1)?.parse().ok()).unwrap_or(0)
}

/// Lets four threads make their calls, and returns whether the memory grew by more than 8 MB after
/// the first tenth.
fn let_run(it: &Arc<Objects>, workers: Vec<Worker>, of: Names) -> bool {
    let start = |(number, w)| {
        let it = it.clone();
        thread::spawn(move || run(&it, w, number, of))
    };
    let threads: Vec<_> = workers.into_iter().enumerate().map(start).collect();
    threads.into_iter().for_each(|it| it.join().unwrap());
    memory() > it.memory_before.load(SeqCst) + 8000
}

fn shown(result: Result<Right, Wrong>) -> String {
    match result {
        Ok(Right { events, pending }) => {
            eprintln!("{events} events");
            pending.iter().fold("0\n".into(), |text, it| format!("{text}{it}\n"))
        }
        Err(Wrong::Refused(note)) => format!("1\n{note}"),
        Err(Wrong::NoRecord(fault)) => format!("2\n{fault}\n"),
        Err(Wrong::NoVerdict(note)) => format!("7\n{note}"),
    }
}

fn main() -> Result<(), Box<dyn std::error::Error>> {
    let words: Vec<String> = std::env::args().skip(1).collect();
    let [kind, clock, calls, out] = &words[..] else { std::process::exit(2) };
    let mut record = Record::new(if clock == "tsc" { Clock::Tsc } else { Clock::Counter })?;
    let worker = |it| record.worker(&format!("w{it}"), 61);
    let workers = (0..4).map(worker).collect::<Result<Vec<_>, _>>()?;
    let of =
        (record.eventcount("E", 0)?, record.sequencer("T")?, record.database("D", 7, &["w0"])?);
    let monitor = Monitor::start(record, judge(kind, out))?;
    let (kind, calls_to_make) = (kind.clone(), calls.parse()?);
    let it = Arc::new(Objects { kind, calls_to_make, ..Objects::default() });
    let has_grown = let_run(&it, workers, of);
    print!("{}", shown(monitor.stop()));
    println!("{}", if has_grown { "grown" } else { "constant" });
    Ok(())
}
