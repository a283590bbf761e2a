//! std.rs: eventcounts over Rust's std: an atomic, a Mutex with a Condvar, an RwLock, and
//! `thread::park`; and `sync_channel`, a queue.
//!
//!     rustc -O --edition 2021 --cfg libevc std.rs -L FOLDER_OF_LIBEVC -l static=evc
//!     std                                                   lists its objects
//!     std OBJECT [THREADS [ROUNDS [CLOCK [SEED [SHAPE]]]]]  tries one
//!
//! CLOCK is counter, tsc or monotonic. SHAPE is mixed or ring. Bugs: `rust_load_store` raises by a
//! load and a store, `rust_condvar_one` wakes one, which may be one that waits for more, and
//! `rust_sync_channel_large` has room for one item more. The status is 0 if it passed, 1 if it is
//! refused, 5 if it hung.
#[cfg(libevc)]
#[path = "../../library/evc.rs"]
mod evc;
#[path = "../../recorder/evc_calls.rs"]
mod evc_calls;
#[path = "../../recorder/evc_stress.rs"]
mod evc_stress;

use evc_calls::{Clock, Reply};
use evc_stress::{Eventcount, Passed, Queue, Shape, Stress, Wrong};
use std::sync::atomic::{AtomicU64, Ordering::SeqCst};
use std::sync::mpsc::{sync_channel, Receiver, SyncSender};
use std::sync::{Condvar, Mutex, RwLock};
use std::thread::{self, Thread};
use std::time::Duration;

/// Looks until the count is high enough. Gives up where it may never be.
fn look_for(threshold: u64, may_wait: bool, read: impl Fn() -> u64) -> Reply {
    for looks in 0.. {
        let seen = read();
        if seen >= threshold {
            return Reply::Number(seen);
        }
        if !may_wait && looks == 100 {
            return Reply::Timeout;
        }
        thread::yield_now();
    }
    unreachable!()
}

struct Atomic<const HAS_BUG: bool>(AtomicU64);

impl<const HAS_BUG: bool> Eventcount for Atomic<HAS_BUG> {
    fn fresh() -> Self {
        Atomic(AtomicU64::new(0))
    }
    fn advance(&self) {
        if HAS_BUG {
            self.0.store(self.0.load(SeqCst) + 1, SeqCst);
        } else {
            self.0.fetch_add(1, SeqCst);
        }
    }
    fn read(&self) -> u64 {
        self.0.load(SeqCst)
    }
    fn await_count(&self, threshold: u64) -> Reply {
        look_for(threshold, !HAS_BUG, || self.read())
    }
}

struct Guarded<const WAKES_ONE: bool> {
    count: Mutex<u64>,
    reached: Condvar,
}

impl<const WAKES_ONE: bool> Eventcount for Guarded<WAKES_ONE> {
    fn fresh() -> Self {
        Guarded { count: Mutex::new(0), reached: Condvar::new() }
    }
    fn advance(&self) {
        *self.count.lock().unwrap() += 1;
        if WAKES_ONE {
            self.reached.notify_one();
        } else {
            self.reached.notify_all();
        }
    }
    fn read(&self) -> u64 {
        *self.count.lock().unwrap()
    }
    fn await_count(&self, threshold: u64) -> Reply {
        let count = self.count.lock().unwrap();
        let count = self.reached.wait_while(count, |it| *it < threshold).unwrap();
        Reply::Number(*count)
    }
}

struct Shared(RwLock<u64>);

impl Eventcount for Shared {
    fn fresh() -> Self {
        Shared(RwLock::new(0))
    }
    fn advance(&self) {
        *self.0.write().unwrap() += 1;
    }
    fn read(&self) -> u64 {
        *self.0.read().unwrap()
    }
    fn await_count(&self, threshold: u64) -> Reply {
        look_for(threshold, true, || self.read())
    }
}

struct Parked {
    count: AtomicU64,
    sleepers: Mutex<Vec<Thread>>,
}

impl Eventcount for Parked {
    fn fresh() -> Self {
        Parked { count: AtomicU64::new(0), sleepers: Mutex::new(vec![]) }
    }
    fn advance(&self) {
        self.count.fetch_add(1, SeqCst);
        for sleeper in self.sleepers.lock().unwrap().drain(..) {
            sleeper.unpark();
        }
    }
    fn read(&self) -> u64 {
        self.count.load(SeqCst)
    }
    fn await_count(&self, threshold: u64) -> Reply {
        loop {
            self.sleepers.lock().unwrap().push(thread::current());
            let seen = self.read();
            if seen >= threshold {
                return Reply::Number(seen);
            }
            thread::park();
        }
    }
}

/// A channel, whose receiver is shared under a mutex.
struct Channel<const TRIES: bool, const MORE: usize>(SyncSender<u64>, Mutex<Receiver<u64>>);

impl<const TRIES: bool, const MORE: usize> Queue for Channel<TRIES, MORE> {
    const CAPACITY: u64 = 3;

    fn fresh() -> Self {
        let (sender, receiver) = sync_channel(Self::CAPACITY as usize + MORE);
        Channel(sender, Mutex::new(receiver))
    }
    fn produce(&self, item: u64) -> Reply {
        match TRIES {
            true => look(|| self.0.try_send(item).ok().map(|()| Reply::Done)),
            false => self.0.send(item).map_or(Reply::Timeout, |()| Reply::Done),
        }
    }
    fn consume(&self) -> Reply {
        match TRIES {
            true => look(|| self.1.lock().unwrap().try_recv().ok().map(Reply::Number)),
            false => self.1.lock().unwrap().recv().map_or(Reply::Timeout, Reply::Number),
        }
    }
}

/// Tries some times, and then gives up.
fn look(mut make: impl FnMut() -> Option<Reply>) -> Reply {
    let mut looks = 0..20;
    let tried = looks.find_map(|_| make().or_else(|| (thread::yield_now(), None).1));
    tried.unwrap_or(Reply::Timeout)
}

type Run = fn(&Stress) -> Result<Passed, Wrong>;

/// Each object, with its kind. It has a ring if threads can take turns on it: no await gives up.
const OBJECTS: [(&str, &str, Run); 9] = [
    ("right", "rust_atomic ring", Stress::run::<Atomic<false>>),
    ("right", "rust_condvar ring", Stress::run::<Guarded<false>>),
    ("right", "rust_rwlock ring", Stress::run::<Shared>),
    ("right", "rust_park ring", Stress::run::<Parked>),
    ("right", "rust_sync_channel", Stress::run_queue::<Channel<false, 0>>),
    ("right", "rust_sync_channel_try", Stress::run_queue::<Channel<true, 0>>),
    ("bug", "rust_load_store", Stress::run::<Atomic<true>>),
    ("bug", "rust_condvar_one ring", Stress::run::<Guarded<true>>),
    ("bug", "rust_sync_channel_large", Stress::run_queue::<Channel<false, 1>>),
];

/// Says what came out, and returns the status for it.
fn says(result: Result<Passed, Wrong>) -> i32 {
    let status = match &result {
        Ok(Passed { rounds, calls, overlap }) => {
            eprintln!("passed: round {rounds}, {calls} calls, overlap {overlap:.2}");
            return 0;
        }
        Err(Wrong::Refused(..)) => 1,
        Err(Wrong::NoRecord(..)) => 2,
        Err(Wrong::NoVerdict(..)) => 3,
        Err(Wrong::Hung(..)) => 5,
        Err(Wrong::Panicked(..)) => 6,
    };
    result.map_or_else(|wrong| eprintln!("{wrong}"), |_| ());
    status
}

fn main() {
    let words: Vec<String> = std::env::args().skip(1).collect();
    let Some(name) = words.first() else {
        OBJECTS.iter().for_each(|(kind, name, _)| println!("{kind} {name}"));
        return;
    };
    let is_it = |it: &&(&str, &str, Run)| it.1.split(' ').next() == Some(name);
    let Some((_, _, run)) = OBJECTS.iter().find(is_it) else {
        eprintln!("there is no object {name}");
        std::process::exit(2);
    };
    let number =
        |place: usize, usual| words.get(place).and_then(|it| it.parse().ok()).unwrap_or(usual);
    let stress = Stress {
        threads: number(1, 4),
        rounds: number(2, 1000),
        seed: number(4, 0) as u64,
        hang: Duration::from_secs(2),
        keep: format!("{name}.calls").into(),
        shape: if words.get(5).is_some_and(|it| it == "ring") { Shape::Ring } else { Shape::Mixed },
        clock: match words.get(3).map(String::as_str) {
            Some("tsc") => Clock::Tsc,
            Some("monotonic") => Clock::Monotonic,
            _ => Clock::Counter,
        },
        ..Stress::default()
    };
    std::process::exit(says(run(&stress)));
}
