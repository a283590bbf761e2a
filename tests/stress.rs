//! tests/stress.rs: what tests/run-recorder asks of recorder/evc_stress.rs, by the words of
//! tests/stress.c: KIND SHAPE CLOCK ROUNDS. KIND is right, lost, early, kept, wake, abort, unkept,
//! ticket, lock, full, misused, misnamed, silent, outside or unsure; or panics: an advance of the third round does.
//! With the shape queue it is right, hasty, shared or wide.
#[cfg(libevc)]
#[path = "../library/evc.rs"]
mod evc;
#[path = "../recorder/evc_calls.rs"]
mod evc_calls;
#[path = "../recorder/evc_stress.rs"]
mod evc_stress;

use evc_calls::{Call, Cells, Clock, Fault, Record, Reply, Semaphore, Sequencer, Worker};
use evc_stress::{Chance, Eventcount, Passed, Queue, Shape, Stress, Wrong};
use std::cell::Cell;
use std::sync::atomic::{AtomicU64, Ordering::SeqCst};
use std::sync::{Condvar, Mutex, OnceLock};
use std::thread::yield_now;
use std::time::Duration;

static KIND: OnceLock<String> = OnceLock::new();
static ROUNDS_BEGUN: AtomicU64 = AtomicU64::new(0);

fn is(kind: &str) -> bool {
    KIND.get().is_some_and(|it| it == kind)
}

fn has_bug() -> bool {
    is("lost") || is("unkept")
}

/// Returns a number and adds one. With a bug, others may change it in between.
fn add(number: &AtomicU64, has_bug: bool) -> u64 {
    if !has_bug {
        return number.fetch_add(1, SeqCst);
    }
    let seen = number.load(SeqCst);
    yield_now();
    number.store(seen + 1, SeqCst);
    seen
}

#[derive(Default)]
struct Count {
    count: AtomicU64,
    holds: AtomicU64,
    lock: Mutex<()>,
    reached: Condvar,
}

thread_local! {
    static KEPT: Cell<u64> = const { Cell::new(0) };
}

impl Eventcount for Count {
    fn fresh() -> Self {
        ROUNDS_BEGUN.fetch_add(1, SeqCst);
        Count::default()
    }

    fn advance(&self) {
        let _guard = is("wake").then(|| self.lock.lock());
        let dies = add(&self.count, has_bug()) == 9 && ROUNDS_BEGUN.load(SeqCst) == 3;
        if is("wake") {
            self.reached.notify_one();
        }
        if dies && is("abort") {
            std::process::abort();
        }
        assert!(!(dies && is("panics")), "this advance panics");
    }

    fn read(&self) -> u64 {
        let (seen, before) = (self.count.load(SeqCst), KEPT.get());
        KEPT.set(seen);
        if is("kept") {
            before
        } else {
            seen
        }
    }

    fn await_count(&self, threshold: u64) -> Reply {
        if is("wake") {
            let guard = self.lock.lock().unwrap();
            let is_below = |_: &mut ()| self.count.load(SeqCst) < threshold;
            drop(self.reached.wait_while(guard, is_below));
            return Reply::Done;
        }
        let mut looks = 0;
        while self.count.load(SeqCst) + (is("early") as u64) < threshold {
            looks += 1;
            if has_bug() && looks == 30 {
                return Reply::Timeout; // (it may not come any more)
            }
            yield_now();
        }
        if is("early") {
            Reply::Done
        } else {
            Reply::Number(self.count.load(SeqCst))
        }
    }
}

/// The slot of ticket t is free when its turn is t, and has an item when that is t + 1.
struct Ring {
    slots: Vec<(AtomicU64, AtomicU64)>,
    produced: AtomicU64,
    consumed: AtomicU64,
}

impl Ring {
    /// Draws a ticket when its slot has its turn. Returns none if that may not come, as items were
    /// lost.
    fn draw(&self, next: &AtomicU64, ahead: u64) -> Option<u64> {
        let mut looks = 0;
        while !is("shared") || looks < 30 {
            let ticket = next.load(SeqCst);
            if self.slot(ticket).0.load(SeqCst) != ticket + ahead {
                yield_now();
            } else if is("shared") && ahead == 0 {
                yield_now();
                next.store(ticket + 1, SeqCst);
                return Some(ticket);
            } else if next.compare_exchange(ticket, ticket + 1, SeqCst, SeqCst).is_ok() {
                return Some(ticket);
            }
            looks += 1;
        }
        None
    }

    /// Returns the turn and the item.
    fn slot(&self, ticket: u64) -> &(AtomicU64, AtomicU64) {
        &self.slots[ticket as usize % self.slots.len()]
    }
}

impl Queue for Ring {
    const CAPACITY: u64 = 2;

    fn fresh() -> Self {
        let slots = Self::CAPACITY + is("wide") as u64;
        Ring {
            slots: (0..slots).map(|it| (AtomicU64::new(it), AtomicU64::new(0))).collect(),
            produced: AtomicU64::new(0),
            consumed: AtomicU64::new(0),
        }
    }

    fn produce(&self, item: u64) -> Reply {
        let Some(ticket) = self.draw(&self.produced, 0) else { return Reply::Timeout };
        let (turn, place) = self.slot(ticket);
        if is("hasty") {
            turn.store(ticket + 1, SeqCst);
            yield_now();
        }
        place.store(item, SeqCst);
        if !is("hasty") {
            turn.store(ticket + 1, SeqCst);
        }
        Reply::Done
    }

    fn consume(&self) -> Reply {
        let Some(ticket) = self.draw(&self.consumed, 1) else { return Reply::Timeout };
        let (turn, place) = self.slot(ticket);
        let item = place.load(SeqCst);
        turn.store(ticket + self.slots.len() as u64, SeqCst);
        Reply::Number(item)
    }
}

type Objects = (Sequencer, Semaphore, Cells);

fn declare(record: &mut Record) -> Result<Objects, Fault> {
    let name = if is("misnamed") { "p" } else { "S" };
    Ok((record.sequencer("T")?, record.semaphore(name, 1)?, record.cells("X", 1)?))
}

fn hold(it: &Count, s: Semaphore, w: &mut Worker, chance: &mut Chance) {
    w.call(Call::P(s), || {
        while it.holds.load(SeqCst) > 0 {
            yield_now();
        }
        yield_now();
        it.holds.store(1, SeqCst);
        Reply::Done
    });
    chance.pause();
    w.call(Call::V(s), || {
        it.holds.store(0, SeqCst);
        Reply::Done
    });
}

fn put_and_get(it: &Count, x: Cells, w: &mut Worker) {
    w.call(Call::Put(x, 0, 1), || {
        it.count.store(1, SeqCst);
        yield_now();
        Reply::Done
    });
    w.call(Call::Get(x, 0), || Reply::Number(it.count.load(SeqCst)));
}

fn work(it: &Count, of: Objects, w: &mut Worker, me: usize, chance: &mut Chance) {
    for k in 0..if is("full") { 100 } else { 8 } {
        if is("silent") {
            return;
        }
        chance.pause();
        while is("outside") && me == 1 && k == 4 {
            std::thread::park();
        }
        if is("outside") {
            w.call(Call::P(of.1), || Reply::Timeout);
        } else if is("ticket") {
            w.call(Call::Ticket(of.0), || Reply::Number(add(&it.count, true)));
        } else if is("misused") {
            w.call(Call::Ticket(of.0), || Reply::Done);
        } else if is("unsure") {
            put_and_get(it, of.2, w);
        } else {
            hold(it, of.1, w, chance);
        }
    }
}

fn status(result: Result<Passed, Wrong>) -> i32 {
    match &result {
        Ok(passed) => {
            eprintln!("passed: round {}, {} calls", passed.rounds, passed.calls);
            if passed.overlap < 0.3 {
                eprintln!("weak: the calls hardly overlapped");
            }
            return 0;
        }
        Err(Wrong::NoRecord(fault)) => eprintln!("no record: round 0\n{fault}"),
        Err(Wrong::NoVerdict(note)) => eprint!("no verdict: round 0\n{note}"),
        Err(wrong) => eprintln!("{wrong}"),
    }
    match result {
        Err(Wrong::Refused(..)) => 1,
        Err(Wrong::NoRecord(_)) => 2,
        Err(Wrong::Hung(..)) => 5,
        Err(Wrong::Panicked(..)) => 6,
        _ => 3,
    }
}

fn main() {
    let words: Vec<String> = std::env::args().skip(1).collect();
    let [kind, shape, clock, rounds] = &words[..] else { std::process::exit(2) };
    let _ = KIND.set(kind.clone());
    let keep = if is("unkept") { "nowhere/refused.calls" } else { "refused.calls" };
    let stress = Stress {
        keep: keep.into(),
        rounds: rounds.parse().unwrap_or(1),
        hang: Duration::from_secs(if is("wake") || is("outside") { 2 } else { 20 }),
        file: is("abort").then(|| "x.record".into()),
        shape: if shape == "ring" { Shape::Ring } else { Shape::Mixed },
        clock: match clock.as_str() {
            "tsc" => Clock::Tsc,
            "monotonic" => Clock::Monotonic,
            _ => Clock::Counter,
        },
        ..Stress::default()
    };
    let works = ["ticket", "lock", "full", "misused", "misnamed", "silent", "outside", "unsure"];
    let result = if shape == "queue" {
        stress.run_queue::<Ring>()
    } else if works.contains(&kind.as_str()) {
        stress.run_with(declare, Count::fresh, work)
    } else {
        stress.run::<Count>()
    };
    std::process::exit(status(result));
}
