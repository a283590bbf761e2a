//! Many short rounds of threads on fresh objects, each judged.
//!
//! Plain Rust, this module and evc_calls.rs, no dependency. Nothing of it is proved: a history is
//! right or wrong because the judge says so.
//!
//!     mod evc; // library/evc.rs: with --cfg libevc the library judges, in this process
//!     mod evc_calls;
//!     mod evc_stress;
//!
//!     impl Eventcount for Mine {
//!         fn fresh() -> Self { .. }
//!         fn advance(&self) { .. }
//!         fn read(&self) -> u64 { .. }
//!         fn await_count(&self, threshold: u64) -> Reply { .. }
//!     }
//!
//!     #[test]
//!     fn it_counts() {
//!         Stress::default().run::<Mine>().unwrap();
//!     }
//!
//! Without `--cfg libevc` the judge is the program `evc-calls`, found on PATH or by the variable
//! EVC_CALLS, and there is no need for evc.rs. Or set `judge`: to `by_library`, `by_program`, or a
//! function of yours.
//!
//! `Shape::Mixed`: half of the threads (`producers`) advance and read, the others read and await.
//! `Shape::Ring`: each thread awaits its turn and advances, so every wake-up is needed. `run_queue`
//! is for queues, and `run_with` for other objects. The head of recorder/evc_stress.h says more; the
//! two do the same.
#![allow(dead_code)]

use super::evc_calls::{self, Call, Clock, Fault, Idle, Record, Reply, Worker};
use std::collections::HashMap;
use std::fmt;
use std::io::{Read, Write};
use std::panic::{catch_unwind, AssertUnwindSafe};
use std::path::PathBuf;
use std::process::{Command, Stdio};
use std::sync::atomic::{AtomicBool, AtomicUsize, Ordering::SeqCst};
use std::sync::{Arc, Mutex, MutexGuard};
use std::thread::{self, JoinHandle, Thread};
use std::time::{Duration, Instant};

/// An eventcount of yours.
pub trait Eventcount: Send + Sync + 'static {
    fn fresh() -> Self;
    fn advance(&self);
    fn read(&self) -> u64;
    /// Returns the count, or `Done`, or `Timeout`.
    fn await_count(&self, threshold: u64) -> Reply;
}

/// A bounded queue of yours.
pub trait Queue: Send + Sync + 'static {
    /// So many items may be in it.
    const CAPACITY: u64;
    fn fresh() -> Self;
    /// Returns `Done`, or `Timeout` if it gave up.
    fn produce(&self, item: u64) -> Reply;
    /// Returns the item as a `Number`, or `Timeout`.
    fn consume(&self) -> Reply;
}

#[derive(Clone, Copy, Debug, PartialEq, Eq)]
pub enum Shape {
    Mixed,
    Ring,
}

/// What a judge says of one history or several, with its notes.
#[derive(Clone, Debug, PartialEq, Eq)]
pub enum Verdict {
    /// Each is linearizable: remarks, or nothing.
    Linearizable(String),
    /// One is not: why.
    Refused(String),
    /// One is not decided: why.
    Undecided(String),
    /// There is no verdict: why.
    None(String),
}

/// Where the pauses and choices of a thread come from.
pub struct Chance(u64);

impl Chance {
    fn of(seed: u64, round: usize, thread: usize) -> Chance {
        let state = seed.wrapping_add(1).wrapping_mul(0x9E37_79B9_7F4A_7C15);
        Chance(state ^ (round as u64).wrapping_mul(0xD1B5_4A32_D192_ED03) ^ (thread as u64) << 17)
    }

    pub fn below(&mut self, bound: u64) -> u64 {
        self.0 ^= self.0 << 13;
        self.0 ^= self.0 >> 7;
        self.0 ^= self.0 << 17;
        (self.0 >> 11) % bound
    }

    /// Pauses: usually not at all, now and then for a moment, until others ran, or asleep.
    pub fn pause(&mut self) {
        match self.below(64) {
            0..=15 => (0..self.below(100)).for_each(|_| std::hint::spin_loop()),
            16..=19 => thread::yield_now(),
            20 => thread::sleep(Duration::from_micros(1)),
            _ => (),
        }
    }
}

/// How many rounds there were, and how much the calls overlapped.
#[derive(Clone, Debug, PartialEq)]
pub struct Passed {
    pub rounds: usize,
    pub calls: usize,
    /// How many calls of others were pending when one was called, on average. Below 0.3 a pass is
    /// weak.
    pub overlap: f64,
}

/// What went wrong.
#[derive(Clone, PartialEq)]
pub enum Wrong {
    /// The round from 1, the judge's notes, and where the history is.
    Refused(usize, String, PathBuf),
    /// The round, the calls that have not returned with the judge's remarks, and where the history
    /// is.
    Hung(usize, String, PathBuf),
    /// The same, if a thread panicked: what it said is on standard error.
    Panicked(usize, String, PathBuf),
    NoRecord(Fault),
    NoVerdict(String),
}

impl fmt::Display for Wrong {
    fn fmt(&self, f: &mut fmt::Formatter<'_>) -> fmt::Result {
        let mut kept = |what: &str, round: &usize, note: &str, path: &PathBuf| {
            write!(f, "{what}: round {round}\n{note}the history is in {}", path.display())
        };
        match self {
            Wrong::Refused(round, note, path) => kept("REFUSED", round, note, path),
            Wrong::Hung(round, note, path) => kept("HUNG", round, note, path),
            Wrong::Panicked(round, note, path) => kept("PANICKED", round, note, path),
            Wrong::NoRecord(fault) => write!(f, "no record: {fault}"),
            Wrong::NoVerdict(note) => write!(f, "no verdict: {note}"),
        }
    }
}

// (so that `unwrap` in a test shows the note as it is)
impl fmt::Debug for Wrong {
    fn fmt(&self, f: &mut fmt::Formatter<'_>) -> fmt::Result {
        fmt::Display::fmt(self, f)
    }
}

impl std::error::Error for Wrong {}

/// A test, to be run.
#[derive(Clone)]
pub struct Stress {
    /// At most 16.
    pub threads: usize,
    pub rounds: usize,
    /// For the calls of a thread in a round.
    pub room: u32,
    /// So many rounds are judged together: 1 by the library, 20 by the program.
    pub batch: usize,
    /// So many threads advance, in mixed rounds, or produce; 0 means half of them, rounded up.
    pub producers: usize,
    pub seed: u64,
    /// A round hangs after so long without an invocation or a response. It waits longer for threads
    /// that the machine has not run.
    pub hang: Duration,
    /// The file for a wrong history.
    pub keep: PathBuf,
    /// Keeps the record of the round, should the program die: for recorder/recover.c.
    pub file: Option<PathBuf>,
    pub clock: Clock,
    pub shape: Shape,
    pub judge: fn(&str) -> Verdict,
}

impl Default for Stress {
    fn default() -> Stress {
        Stress {
            threads: 4,
            rounds: 1000,
            room: 64,
            batch: if cfg!(libevc) { 1 } else { 20 },
            producers: 0,
            seed: 0,
            hang: Duration::from_secs(10),
            keep: "refused.calls".into(),
            file: None,
            clock: Clock::Counter,
            shape: Shape::Mixed,
            #[cfg(libevc)]
            judge: by_library,
            #[cfg(not(libevc))]
            judge: by_program,
        }
    }
}

/// Judges by the library, in this process.
#[cfg(libevc)]
pub fn by_library(text: &str) -> Verdict {
    match super::evc::check_calls(text.as_bytes()) {
        Ok(ordered) => Verdict::Linearizable(ordered.remarks),
        Err(super::evc::Fault::Refused(note)) => Verdict::Refused(note),
        Err(super::evc::Fault::NotDecided(note)) => Verdict::Undecided(note),
        Err(fault) => Verdict::None(format!("{fault}\n")),
    }
}

/// Judges by `evc-calls check`, a process of its own: the program in EVC_CALLS, or on PATH.
pub fn by_program(text: &str) -> Verdict {
    let program = std::env::var("EVC_CALLS").unwrap_or("evc-calls".into());
    let mut command = Command::new(&program);
    command.arg("check").stdin(Stdio::piped()).stdout(Stdio::null()).stderr(Stdio::piped());
    let Ok(mut child) = command.spawn() else {
        let how = "set EVC_CALLS, or link libevc and use --cfg libevc";
        return Verdict::None(format!("there is no program {program}: {how}\n"));
    };
    let mut note = String::new();
    if let Some(mut input) = child.stdin.take() {
        let _ = input.write_all(text.as_bytes()); // (it may have seen enough)
    }
    if let Some(mut notes) = child.stderr.take() {
        let _ = notes.read_to_string(&mut note);
    }
    match child.wait().ok().and_then(|it| it.code()) {
        Some(0) => Verdict::Linearizable(note),
        Some(1) => Verdict::Refused(note),
        Some(5) => Verdict::Undecided(note),
        _ => Verdict::None(note),
    }
}

/// The histories that wait for a verdict, and the counts of all.
#[derive(Default)]
struct Waiting {
    texts: Vec<String>,
    calls: usize,
    overlaps: usize,
    /// How many rounds are not decided.
    undecided: usize,
}

impl Waiting {
    fn add(&mut self, text: String) {
        let mut pending = 0;
        for line in text.lines().skip_while(|it| *it != "run").skip(1) {
            match line.split(' ').nth(1) {
                Some("calls") => {
                    self.calls += 1;
                    self.overlaps += pending;
                    pending += 1;
                }
                Some("returns") => pending -= 1,
                _ => (),
            }
        }
        self.texts.push(text);
    }
}

impl Stress {
    /// Runs rounds on fresh eventcounts. After a hang the threads are still there: leave then.
    pub fn run<T: Eventcount>(&self) -> Result<Passed, Wrong> {
        let (shape, threads, producers) = (self.shape, self.threads, self.producers());
        let work = move |subject: &T, e, w: &mut Worker, number, chance: &mut Chance| match shape {
            Shape::Mixed => mixed(subject, e, w, number, producers, chance),
            Shape::Ring => ring(subject, e, w, number, threads, chance),
        };
        self.run_with(|record| record.eventcount("E", 0), T::fresh, work)
    }

    /// Runs rounds on fresh queues: the producers produce, ten items each with numbers of their own,
    /// and the others consume as many. Either both may give up, or neither.
    pub fn run_queue<T: Queue>(&self) -> Result<Passed, Wrong> {
        let (threads, producers) = (self.threads, self.producers());
        let declare = move |record: &mut Record| {
            let names: Vec<_> = (0..producers).map(|it| format!("w{it}")).collect();
            let names: Vec<_> = names.iter().map(String::as_str).collect();
            record.buffer("B", T::CAPACITY, &names)
        };
        let work = move |subject: &T, b, w: &mut Worker, number, chance: &mut Chance| {
            queue(subject, b, w, number, (producers, threads - producers), chance);
        };
        self.run_with(declare, T::fresh, work)
    }

    fn producers(&self) -> usize {
        if self.producers > 0 {
            self.producers
        } else {
            self.threads.div_ceil(2)
        }
    }

    /// Runs rounds: what `declare` returns is passed to each thread's `work`, with a fresh object.
    pub fn run_with<O: Copy + Send + 'static, T: Send + Sync + 'static>(
        &self,
        declare: impl Fn(&mut Record) -> Result<O, Fault>,
        fresh: impl Fn() -> T,
        work: impl Fn(&T, O, &mut Worker, usize, &mut Chance) + Send + Sync + 'static,
    ) -> Result<Passed, Wrong> {
        let mut waiting = Waiting::default();
        let first = Record::new(self.clock).map_err(Wrong::NoRecord)?;
        let threads = Threads::start(self.threads, self.seed, work).map_err(Wrong::NoRecord)?;
        let mut result = Ok(());
        for round in 1..=self.rounds {
            result = self.round(&first, round, &declare, fresh(), &threads, &mut waiting);
            let is_due = waiting.texts.len() >= self.batch || round == self.rounds;
            if result.is_ok() && is_due {
                result = self.judged(round, &mut waiting).map(drop);
            }
            if result.is_err() {
                break;
            }
        }
        threads.end();
        first.measured_again().map_err(Wrong::NoRecord)?;
        let overlap = waiting.overlaps as f64 / waiting.calls.max(1) as f64;
        result?;
        match waiting.undecided {
            0 => Ok(Passed { rounds: self.rounds, calls: waiting.calls, overlap }),
            rounds => {
                let first = self.keep.display();
                let note = format!("{rounds} rounds are not decided, the first is in {first}\n");
                Err(Wrong::NoVerdict(note))
            }
        }
    }

    /// Lets the threads do one round, all at once.
    fn round<O: Copy + Send + 'static, T: Send + Sync + 'static>(
        &self,
        first: &Record,
        round: usize,
        declare: &impl Fn(&mut Record) -> Result<O, Fault>,
        subject: T,
        threads: &Threads<T, O>,
        waiting: &mut Waiting,
    ) -> Result<(), Wrong> {
        let mut record = first.another(self.file.as_deref()).map_err(Wrong::NoRecord)?;
        let worker = |it| record.worker(&format!("w{it}"), self.room);
        let workers = (0..self.threads).map(worker).collect::<Result<Vec<_>, _>>();
        let workers = workers.map_err(Wrong::NoRecord)?;
        let objects = declare(&mut record).map_err(Wrong::NoRecord)?;
        threads.begin(round, subject, objects, workers);
        if !self.have_ended(&record, &threads.stage) {
            return self.stopped(round, &record, &threads.stage, waiting);
        }
        let (text, cut) = record.unmeasured_text().map_err(Wrong::NoRecord)?;
        waiting.add(text);
        cut.map_or(Ok(()), |fault| Err(Wrong::NoRecord(fault)))
    }

    /// Waits for all threads, and returns whether they ended: none panicked, and something moved.
    fn have_ended<T, O>(&self, record: &Record, stage: &Stage<T, O>) -> bool {
        let mut idle = Idle::new(Duration::from_millis(20));
        let (mut before, mut looks, mut seen) = (0, 0, HashMap::new());
        while stage.left.load(SeqCst) > 0 {
            thread::park_timeout(Duration::from_millis(5));
            if stage.panicked.load(SeqCst) {
                break;
            }
            let moves = record.moves();
            let is_long = idle.grown(moves == before) > self.hang / 2;
            looks = if moves == before { looks } else { 0 };
            before = moves;
            if is_long {
                let starved = starved(&mut seen);
                if looks > 0 && (starved == 0 || looks > PATIENCE) {
                    return false;
                }
                looks += 1;
                idle.grown(false);
            }
        }
        !stage.panicked.load(SeqCst)
    }

    /// Judges a round that hung, or in which a thread panicked, with those that wait for a verdict.
    /// If none is wrong, it is kept as hung or panicked.
    fn stopped<T, O>(
        &self,
        round: usize,
        record: &Record,
        stage: &Stage<T, O>,
        waiting: &mut Waiting,
    ) -> Result<(), Wrong> {
        self.judged(round - 1, waiting)?;
        let (text, pending) = record.text_so_far().map_err(Wrong::NoRecord)?;
        waiting.add(text.clone());
        let remarks = self.judged(round, waiting)?;
        let has_panicked = stage.panicked.load(SeqCst);
        let mut note: String = pending.iter().map(|it| format!("{it}\n")).collect();
        if note.is_empty() && !has_panicked {
            note = "no call is pending: a thread hangs between its calls\n".into();
        }
        note += &remarks;
        let path = self.kept(&text, &note);
        let kind = if has_panicked { Wrong::Panicked } else { Wrong::Hung };
        Err(kind(round, note, path))
    }

    /// Judges the histories that wait for a verdict, the last of which is of this round. Returns
    /// the judge's remarks. Of those that are not decided the first of all rounds is kept.
    fn judged(&self, round: usize, waiting: &mut Waiting) -> Result<String, Wrong> {
        let (texts, undecided) = (std::mem::take(&mut waiting.texts), waiting.undecided);
        if texts.is_empty() {
            return Ok(String::new());
        }
        if let Verdict::Linearizable(remarks) = (self.judge)(&texts.concat()) {
            return Ok(remarks);
        }
        for (place, text) in texts.iter().enumerate() {
            let of = round + 1 + place - texts.len();
            match (self.judge)(text) {
                Verdict::Linearizable(_) => (),
                Verdict::Undecided(note) => {
                    waiting.undecided += 1;
                    if waiting.undecided == 1 {
                        self.kept(text, &note);
                    }
                }
                Verdict::Refused(note) => {
                    return Err(Wrong::Refused(of, note.clone(), self.kept(text, &note)));
                }
                Verdict::None(note) => return Err(Wrong::NoVerdict(note)),
            }
        }
        if waiting.undecided > undecided {
            return Ok(String::new());
        }
        Err(Wrong::NoVerdict("the judge refuses them together only\n".into()))
    }

    /// Keeps a history, with its note: on standard error, if its file can't be written.
    fn kept(&self, text: &str, note: &str) -> PathBuf {
        let mut path = self.keep.clone().into_os_string();
        path.push(".note");
        if std::fs::write(&self.keep, text).and_then(|()| std::fs::write(path, note)).is_err() {
            eprint!("could not write {} and its note, so here it is\n{text}", self.keep.display());
            return "(standard error)".into();
        }
        self.keep.clone()
    }
}

/// How often a round is given more time for threads that have not run.
const PATIENCE: usize = 40;

/// For how many ticks of 10 ms a thread has run, and how often it was given a processor.
#[derive(Clone, Copy)]
struct Run {
    ticks: u64,
    turns: u64,
}

/// Returns whether a thread is ready to run, and how it has run.
fn look_at(thread: &str) -> Option<(bool, Run)> {
    let text = std::fs::read_to_string(format!("/proc/self/task/{thread}/stat")).ok()?;
    let fields: Vec<&str> = text[text.rfind(')')? + 1..].split_whitespace().collect();
    let ticks = |place: usize| fields.get(place).and_then(|it| it.parse::<u64>().ok());
    let turns = std::fs::read_to_string(format!("/proc/self/task/{thread}/schedstat"));
    let turns = turns.ok().and_then(|it| it.split_whitespace().nth(2)?.parse().ok()).unwrap_or(0);
    Some((*fields.first()? == "R", Run { ticks: ticks(11)? + ticks(12)?, turns }))
}

/// Looks at all threads but the calling one. Returns how many are ready to run and have hardly run
/// since the look before: a machine with other work has not given them their turn. (On Linux, else
/// 0.)
fn starved(seen: &mut HashMap<String, Run>) -> usize {
    let own = std::fs::read_link("/proc/thread-self").unwrap_or_default();
    let (mut starved, mut looks) = (0, HashMap::new());
    for it in std::fs::read_dir("/proc/self/task").into_iter().flatten().flatten() {
        let thread = it.file_name().to_string_lossy().into_owned();
        let Some((is_ready, run)) = look_at(&thread) else { continue };
        if own.file_name() == Some(&it.file_name()) {
            continue;
        }
        let has_run =
            |before: &Run| run.ticks >= before.ticks + 2 || run.turns >= before.turns + 20;
        let has_run = seen.get(&thread).is_some_and(has_run);
        starved += (is_ready && !has_run) as usize;
        looks.insert(thread, run);
    }
    *seen = looks;
    starved
}

// The threads of a test. Between two rounds they are parked.

/// What one thread does a round with.
type Given<T, O> = (Arc<T>, O, Worker);

struct Stage<T, O> {
    given: Vec<Mutex<Option<Given<T, O>>>>,
    /// The round that has begun, from 1.
    begun: AtomicUsize,
    /// How often a thread came to the gate, in all rounds.
    ready: AtomicUsize,
    /// How many threads are in the round.
    left: AtomicUsize,
    panicked: AtomicBool,
    ends: AtomicBool,
    main: Thread,
}

struct Threads<T, O> {
    stage: Arc<Stage<T, O>>,
    running: Vec<JoinHandle<()>>,
}

impl<T: Send + Sync + 'static, O: Copy + Send + 'static> Threads<T, O> {
    fn start(
        threads: usize,
        seed: u64,
        work: impl Fn(&T, O, &mut Worker, usize, &mut Chance) + Send + Sync + 'static,
    ) -> Result<Threads<T, O>, Fault> {
        let stage = Arc::new(Stage {
            given: (0..threads).map(|_| Mutex::new(None)).collect(),
            begun: AtomicUsize::new(0),
            ready: AtomicUsize::new(0),
            left: AtomicUsize::new(0),
            panicked: AtomicBool::new(false),
            ends: AtomicBool::new(false),
            main: thread::current(),
        });
        let (mut running, work) = (vec![], Arc::new(work));
        for number in 0..threads {
            let (stage, work) = (stage.clone(), work.clone());
            let stays = move || stage.stay(number, seed, &*work);
            running.push(thread::Builder::new().spawn(stays).map_err(|_| Fault::NoMemory)?);
        }
        Ok(Threads { stage, running })
    }

    fn begin(&self, round: usize, subject: T, objects: O, workers: Vec<Worker>) {
        let subject = Arc::new(subject);
        for (place, worker) in self.stage.given.iter().zip(workers) {
            *locked(place) = Some((subject.clone(), objects, worker));
        }
        self.stage.left.store(self.running.len(), SeqCst);
        self.stage.begun.store(round, SeqCst);
        self.running.iter().for_each(|it| it.thread().unpark());
    }

    /// Ends the threads that are not in a round: of a round that hung they stay.
    fn end(self) {
        let is_round = self.stage.left.load(SeqCst) > 0;
        self.stage.ends.store(true, SeqCst);
        for it in self.running {
            it.thread().unpark();
            if !is_round {
                let _ = it.join();
            }
        }
    }
}

impl<T, O: Copy> Stage<T, O> {
    /// Does what one thread does, round after round.
    fn stay(
        &self,
        number: usize,
        seed: u64,
        work: &impl Fn(&T, O, &mut Worker, usize, &mut Chance),
    ) {
        evc_calls::spread(number);
        for round in 1.. {
            while self.begun.load(SeqCst) < round {
                if self.ends.load(SeqCst) {
                    return;
                }
                thread::park();
            }
            let Some((subject, objects, mut w)) = locked(&self.given[number]).take() else {
                return;
            };
            let mut chance = Chance::of(seed, round, number);
            self.pass_gate(round);
            let work = || work(&subject, objects, &mut w, number, &mut chance);
            if catch_unwind(AssertUnwindSafe(work)).is_err() {
                self.panicked.store(true, SeqCst);
            }
            drop((subject, w));
            self.left.fetch_sub(1, SeqCst);
            self.main.unpark();
        }
    }

    /// Waits for the others, spinning. The last one that comes lets all go. If each thread can have
    /// a processor, it spins for long, so that all start at once even on a machine with other
    /// work.
    fn pass_gate(&self, round: usize) {
        let all = round * self.given.len();
        let processors = thread::available_parallelism().map_or(1, |it| it.get());
        let most = if self.given.len() <= processors { 1000 } else { 50 };
        let (start, mut here) = (Instant::now(), self.ready.fetch_add(1, SeqCst) + 1);
        while here < all {
            if start.elapsed() > Duration::from_micros(most) {
                thread::yield_now();
            }
            here = self.ready.load(SeqCst);
        }
    }
}

fn locked<T>(mutex: &Mutex<T>) -> MutexGuard<'_, T> {
    mutex.lock().unwrap_or_else(|it| it.into_inner())
}

// The shapes.

fn advance<T: Eventcount>(subject: &T, e: evc_calls::Eventcount, w: &mut Worker) {
    w.call(Call::Advance(e), || {
        subject.advance();
        Reply::Done
    });
}

fn await_count<T: Eventcount>(
    subject: &T,
    e: evc_calls::Eventcount,
    w: &mut Worker,
    threshold: u64,
) -> u64 {
    match w.call(Call::Await(e, threshold), || subject.await_count(threshold)) {
        Reply::Number(count) => count,
        _ => threshold,
    }
}

/// Advances six times in ten calls, or reads and awaits what is to come.
fn mixed<T: Eventcount>(
    subject: &T,
    e: evc_calls::Eventcount,
    w: &mut Worker,
    number: usize,
    producers: usize,
    chance: &mut Chance,
) {
    let (total, mut left, mut last) = (6 * producers as u64, 6, 0);
    for calls in (1..=10).rev() {
        chance.pause();
        let by_chance = chance.below(calls);
        if number < producers && by_chance < left {
            left -= 1;
            advance(subject, e, w);
        } else if number < producers || by_chance % 2 == 0 {
            if let Reply::Number(count) = w.call(Call::Read(e), || Reply::Number(subject.read())) {
                last = count;
            }
        } else {
            let threshold = (last + 1 + chance.below(2)).min(total);
            last = await_count(subject, e, w, threshold);
        }
    }
}

/// Awaits its turn ten times, and then lets the next one in.
fn ring<T: Eventcount>(
    subject: &T,
    e: evc_calls::Eventcount,
    w: &mut Worker,
    number: usize,
    threads: usize,
    chance: &mut Chance,
) {
    for lap in 0..10 {
        await_count(subject, e, w, (lap * threads + number) as u64);
        if chance.below(2) == 1 {
            (0..chance.below(1000)).for_each(|_| std::hint::spin_loop());
        }
        advance(subject, e, w);
    }
}

/// Produces ten items, or consumes a share of all.
fn queue<T: Queue>(
    subject: &T,
    b: evc_calls::Buffer,
    w: &mut Worker,
    number: usize,
    (producers, consumers): (usize, usize),
    chance: &mut Chance,
) {
    for k in 0..if number < producers { 10 } else { 0 } {
        chance.pause();
        let item = 100 * (number + 1) as u64 + k;
        w.call(Call::Produce(b, item), || subject.produce(item));
    }
    if let Some(place) = number.checked_sub(producers) {
        let until = |place| 10 * producers * place / consumers;
        for _ in until(place)..until(place + 1) {
            chance.pause();
            w.call(Call::Consume(b), || subject.consume());
        }
    }
}
