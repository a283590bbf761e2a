//! What `evc run` does with workers that advance one eventcount or take turns, in plain Rust under std's Mutex, with a Condvar of
//! std's for each worker, as a baseline.
//!
//! `threads KIND WORKERS TIMES` gives each of so many workers a program that repeats the commands of its kind (`Kind`) so often,
//! and runs each on a thread of its own. In one critical section a worker makes the step that its program asks for, with all
//! checks of a step (`world.rs`). The run keeps its entry, an advance releases the waiters whose threshold the total has reached,
//! and a worker whose await is not satisfied sleeps. Only those that were released are woken, when the lock is free. Each worker
//! keeps a log. When all have ended, the run is compared with the logs, and each worker has to have finished. Then the trace is
//! written, and on standard error how each worker has ended. It leaves out the commands on buffers and databases, P on two
//! semaphores, and the script's text.

mod world;

use std::array;
use std::collections::BTreeSet;
use std::fs::File;
use std::io::{self, BufWriter, Write};
use std::mem;
use std::os::fd::AsFd;
use std::process::ExitCode;
use std::slice;
use std::sync::{Condvar, Mutex, MutexGuard};
use std::thread;
use world::{Act, Entry, LIMIT, Members, Refusal, Reply, Rights, Run, Setup, Steps, VALUE_MAX};

const TURNS: u64 = 1_000_000;

/// A number that a command names: itself, the last number returned, or that plus so many.
#[allow(dead_code)] // the programs here use some of these
enum Value {
    Number(u64),
    Last,
    LastPlus(u64),
}

/// A semaphore by its eventcount, its sequencer and its initial value.
#[derive(Clone, Copy)]
struct Semaphore {
    event: u8,
    sequencer: u8,
    initial: u64,
}

#[allow(dead_code)]
enum Command {
    Advance(u8),
    Read(u8),
    Await(u8, Value),
    Ticket(u8),
    Put(u8, Value),
    Get(u8),
    P(Semaphore),
    V(Semaphore),
    Repeat(u64, Vec<Command>),
}

/// How a program has ended, if it has.
#[derive(Clone, Copy, PartialEq, Eq)]
enum Outcome {
    Running,
    Finished,
    ValueTooLarge,
    Refused(Refusal),
    Stopped,
    OutOfTurns,
}

/// A block that is being run, and how many times it has to be repeated after that.
struct Frame<'a> {
    rest: slice::Iter<'a, Command>,
    block: &'a [Command],
    times: u64,
}

impl<'a> Frame<'a> {
    fn new(block: &'a [Command], times: u64) -> Self {
        Frame {
            rest: block.iter(),
            block,
            times,
        }
    }
}

/// The interpreter of a worker's program. A P whose ticket is due still has its await to make.
struct Machine<'a> {
    frames: Vec<Frame<'a>>,
    due: Option<Act>,
    begun: Option<Semaphore>,
    is_going: bool,
    last: u64,
    outcome: Outcome,
}

impl<'a> Machine<'a> {
    fn new(program: &'a [Command]) -> Self {
        let mut machine = Machine {
            frames: vec![Frame::new(program, 0)],
            due: None,
            begun: None,
            is_going: false,
            last: 0,
            outcome: Outcome::Running,
        };
        machine.settle();
        machine
    }

    fn next(&self) -> Option<Act> {
        if self.is_going {
            Some(Act::Go)
        } else {
            self.due
        }
    }

    fn take(&mut self, reply: Reply) {
        self.is_going = reply == Reply::Pending;
        if let Reply::Number(number) = reply {
            self.last = number;
        }
        if self.is_going {
            return;
        }
        match self.begun.take() {
            Some(semaphore) => self.due = Some(self.await_of(semaphore)),
            None => self.settle(),
        }
    }

    /// Returns the await of a P whose ticket was drawn.
    fn await_of(&self, semaphore: Semaphore) -> Act {
        let threshold = (self.last + 1).saturating_sub(semaphore.initial);
        Act::Await(semaphore.event, threshold)
    }

    fn refuse(&mut self, outcome: Outcome) {
        if self.outcome == Outcome::Running {
            self.due = None;
            self.is_going = false;
            self.outcome = outcome;
        }
    }

    /// Returns the next command that is no repeat.
    fn command(&mut self) -> Option<&'a Command> {
        loop {
            let frame = self.frames.last_mut()?;
            match frame.rest.next() {
                Some(Command::Repeat(count, block)) => {
                    self.frames.push(Frame::new(block, count - 1))
                }
                Some(command) => return Some(command),
                None if frame.times > 0 => *frame = Frame::new(frame.block, frame.times - 1),
                None => {
                    self.frames.pop();
                }
            }
        }
    }

    fn value(&self, value: &Value) -> Option<u64> {
        let number = match *value {
            Value::Number(number) => number,
            Value::Last => self.last,
            Value::LastPlus(more) => self.last + more,
        };
        (number <= VALUE_MAX).then_some(number)
    }

    fn act_of(&self, command: &Command) -> Option<Act> {
        Some(match *command {
            Command::Advance(event) => Act::Advance(event),
            Command::Read(event) => Act::Read(event),
            Command::Await(event, ref value) => Act::Await(event, self.value(value)?),
            Command::Ticket(sequencer) => Act::Ticket(sequencer),
            Command::Put(cell, ref value) => Act::Put(cell, self.value(value)?),
            Command::Get(cell) => Act::Get(cell),
            Command::P(semaphore) => Act::Ticket(semaphore.sequencer),
            Command::V(semaphore) => Act::Advance(semaphore.event),
            Command::Repeat(..) => unreachable!(),
        })
    }

    /// Goes on to the next command.
    fn settle(&mut self) {
        (self.due, self.outcome) = match self.command() {
            None => (None, Outcome::Finished),
            Some(command) => {
                if let Command::P(semaphore) = command {
                    self.begun = Some(*semaphore);
                }
                match self.act_of(command) {
                    None => (None, Outcome::ValueTooLarge),
                    due => (due, Outcome::Running),
                }
            }
        };
    }
}

/// The state of a worker.
#[derive(Clone, Copy, PartialEq, Eq)]
enum Seat {
    Gone,
    Running,
    Waiting(u8, u64),
}

#[derive(PartialEq, Eq)]
enum Parked {
    Stuck,
    Ready,
    Asleep,
}

/// Why a worker got no reply. A refusal comes with the number of entries of the run.
enum Halt {
    Stopped,
    Refused(Refusal, usize),
}

/// The run so far, the state of each worker, for each eventcount its waiters by threshold, and the workers that were released in
/// this critical section, a bit for each.
struct Board {
    run: Run,
    seats: [Seat; 16],
    lines: [BTreeSet<(u64, u8)>; 32],
    is_stuck: bool,
    let_go: u16,
}

impl Board {
    fn open(setup: Setup) -> Self {
        let mut seats = [Seat::Gone; 16];
        seats[..setup.workers].fill(Seat::Running);
        let lines = array::from_fn(|_| BTreeSet::new());
        Board {
            run: Run::open(setup),
            seats,
            lines,
            is_stuck: false,
            let_go: 0,
        }
    }

    fn seat(&mut self, worker: u8, seat: Seat) {
        if let Seat::Waiting(event, threshold) = self.seats[worker as usize] {
            self.lines[event as usize].remove(&(threshold, worker));
        }
        if let Seat::Waiting(event, threshold) = seat {
            self.lines[event as usize].insert((threshold, worker));
        }
        self.seats[worker as usize] = seat;
    }

    /// Releases those that wait for no more than the total.
    fn release(&mut self, event: u8) {
        let total = self.run.world.total(event);
        while let Some(&(threshold, worker)) = self.lines[event as usize].first() {
            if threshold > total {
                break;
            }
            self.seat(worker, Seat::Running);
            self.let_go |= 1 << worker;
        }
    }

    fn step(&mut self, worker: u8, act: Act) -> Result<Reply, Halt> {
        let is_declared = (worker as usize) < self.run.world.setup.workers;
        if self.is_stuck || is_declared && self.seats[worker as usize] == Seat::Gone {
            return Err(Halt::Stopped);
        }
        let reply = match self.run.step(worker, act) {
            Ok(reply) => reply,
            Err(refusal) => return Err(Halt::Refused(refusal, self.run.len())),
        };
        self.seat(worker, Seat::Running);
        if let Act::Advance(event) = act {
            self.release(event);
        }
        Ok(reply)
    }

    /// Returns whether some worker is active, and every active worker waits.
    fn are_stuck(&self) -> bool {
        self.seats.iter().any(|seat| *seat != Seat::Gone) && !self.seats.contains(&Seat::Running)
    }

    fn park(&mut self, worker: u8) -> Parked {
        if self.is_stuck {
            return Parked::Stuck;
        }
        let Some(Act::Await(event, threshold)) = self
            .run
            .world
            .under_way(worker)
            .filter(|call| call.index == 0)
            .map(|call| call.op)
        else {
            return Parked::Ready;
        };
        if self.run.world.total(event) >= threshold {
            return Parked::Ready;
        }
        self.seat(worker, Seat::Waiting(event, threshold));
        self.look_if_stuck();
        if self.is_stuck {
            Parked::Stuck
        } else {
            Parked::Asleep
        }
    }

    fn leave(&mut self, worker: u8) {
        self.seat(worker, Seat::Gone);
        self.look_if_stuck();
    }

    /// Releases all waiters if the board is deadlocked, since no worker can advance.
    fn look_if_stuck(&mut self) {
        if self.is_stuck || !self.are_stuck() {
            return;
        }
        self.is_stuck = true;
        for worker in 0..16 {
            if matches!(self.seats[worker], Seat::Waiting(..)) {
                self.let_go |= 1 << worker;
            }
        }
    }

    fn is_asleep(&self, worker: u8) -> bool {
        !self.is_stuck && matches!(self.seats[worker as usize], Seat::Waiting(..))
    }
}

/// What a worker reports: its log, how its program ended, and the moment of a refusal.
struct Told {
    log: Vec<Entry>,
    outcome: Outcome,
    moment: usize,
}

/// What the threads share: the board under its lock, and what each worker sleeps on.
struct Shared {
    board: Mutex<Board>,
    sleeps: [Condvar; 16],
}

impl Shared {
    /// Releases the lock, and wakes those that were released.
    fn give_back(&self, mut guard: MutexGuard<'_, Board>) {
        let mut let_go = mem::take(&mut guard.let_go);
        drop(guard);
        while let_go != 0 {
            self.sleeps[let_go.trailing_zeros() as usize].notify_one();
            let_go &= let_go - 1;
        }
    }

    /// Runs one critical section: one step and, if an await is not satisfied and the worker may wait, the sleep.
    fn hold(&self, worker: u8, act: Act, may_park: bool) -> Result<Reply, Halt> {
        let mut guard = self.board.lock().unwrap();
        let reply = guard.step(worker, act)?;
        if may_park && reply == Reply::Pending && guard.park(worker) == Parked::Asleep {
            let sleep = &self.sleeps[worker as usize];
            drop(sleep.wait_while(guard, |board| board.is_asleep(worker)));
        } else {
            self.give_back(guard);
        }
        Ok(reply)
    }

    fn leave(&self, worker: u8) {
        let mut guard = self.board.lock().unwrap();
        guard.leave(worker);
        self.give_back(guard);
    }
}

/// Runs a worker up to its end.
fn work(shared: &Shared, worker: u8, program: &[Command]) -> Told {
    let mut machine = Machine::new(program);
    let mut log = Vec::new();
    let mut moment = 0;
    for turn in 1..=TURNS {
        let Some(act) = machine.next() else { break };
        log.reserve(1);
        match shared.hold(worker, act, turn < TURNS) {
            Ok(reply) => {
                log.push(Entry { worker, act, reply });
                machine.take(reply);
            }
            Err(Halt::Stopped) => machine.refuse(Outcome::Stopped),
            Err(Halt::Refused(refusal, entries)) => {
                machine.refuse(Outcome::Refused(refusal));
                moment = entries;
            }
        }
    }
    machine.refuse(Outcome::OutOfTurns);
    shared.leave(worker);
    Told {
        log,
        outcome: machine.outcome,
        moment,
    }
}

/// Returns whether each worker's entries are its log.
fn agree(run: &Run, tolds: &[Told]) -> bool {
    let mut cursors = [0; 16];
    for entry in run.entries() {
        let place = entry.worker as usize;
        let Some(told) = tolds.get(place) else {
            return false;
        };
        if told.log.get(cursors[place]) != Some(entry) {
            return false;
        }
        cursors[place] += 1;
    }
    tolds
        .iter()
        .zip(cursors)
        .all(|(told, cursor)| told.log.len() == cursor)
}

/// Returns whether a worker has finished. (These programs are never refused or stopped, so there is no moment.)
fn is_told(told: &Told) -> bool {
    let steps = told.log.len() as u64;
    told.outcome == Outcome::Finished && steps <= TURNS && told.moment == 0
}

/// Writes a word and a name.
fn write_words(out: &mut impl Write, word: &[u8], name: &str) -> io::Result<()> {
    out.write_all(word)?;
    out.write_all(name.as_bytes())
}

fn write_act(out: &mut impl Write, kind: Kind, act: Act) -> io::Result<()> {
    let (event, sequencer) = kind.names();
    match act {
        Act::Advance(_) => write_words(out, b"advance ", event),
        Act::Read(_) => write_words(out, b"read ", event),
        Act::Await(_, threshold) => {
            write_words(out, b"await ", event)?;
            write!(out, " {threshold}")
        }
        Act::Go => out.write_all(b"go"),
        Act::Ticket(_) => write_words(out, b"ticket ", sequencer),
        Act::Put(cell, value) => write!(out, "put C[{cell}] {value}"),
        Act::Get(cell) => write!(out, "get C[{cell}]"),
        Act::Hand(_, to) => {
            write_words(out, b"hand ", event)?;
            write!(out, " w{to}")
        }
    }
}

fn write_reply(out: &mut impl Write, reply: Reply) -> io::Result<()> {
    match reply {
        Reply::Done => out.write_all(b"done"),
        Reply::Number(number) => write!(out, "{number}"),
        Reply::Pending => out.write_all(b"pending"),
    }
}

fn outcome_words(outcome: Outcome) -> String {
    match outcome {
        Outcome::Running => "running".into(),
        Outcome::Finished => "finished".into(),
        Outcome::ValueTooLarge => "value too large".into(),
        Outcome::Refused(refusal) => format!("refused {refusal:?}"),
        Outcome::Stopped => "stopped".into(),
        Outcome::OutOfTurns => "out of turns".into(),
    }
}

fn write_trace(run: &Run, kind: Kind, names: &[String]) -> io::Result<()> {
    // (past std's own buffer, which would cut each piece at its last line)
    let mut out =
        BufWriter::with_capacity(8192, File::from(io::stdout().as_fd().try_clone_to_owned()?));
    let all = names.join(" ");
    write!(out, "evc-trace 1\nlimit {LIMIT}\nworkers {all}\n")?;
    out.write_all(kind.declarations(&all).as_bytes())?;
    out.write_all(b"run\n")?;
    for entry in run.entries() {
        out.write_all(names[entry.worker as usize].as_bytes())?;
        out.write_all(b" ")?;
        write_act(&mut out, kind, entry.act)?;
        out.write_all(b" = ")?;
        write_reply(&mut out, entry.reply)?;
        out.write_all(b"\n")?;
    }
    out.write_all(b"end\n")?;
    out.flush()
}

/// What each worker does again and again.
#[derive(Clone, Copy)]
enum Kind {
    /// It advances an eventcount that nobody observes.
    Advances,
    /// It draws a ticket, awaits its turn, and advances.
    Queue,
    /// It makes P and V on a semaphore of initial value 1.
    Semaphore,
}

impl Kind {
    fn of(word: &str) -> Option<Kind> {
        match word {
            "advances" => Some(Kind::Advances),
            "queue" => Some(Kind::Queue),
            "semaphore" => Some(Kind::Semaphore),
            _ => None,
        }
    }

    fn commands(self) -> Vec<Command> {
        let semaphore = Semaphore {
            event: 0,
            sequencer: 0,
            initial: 1,
        };
        match self {
            Kind::Advances => vec![Command::Advance(0)],
            Kind::Queue => vec![
                Command::Ticket(0),
                Command::Await(0, Value::Last),
                Command::Advance(0),
            ],
            Kind::Semaphore => vec![Command::P(semaphore), Command::V(semaphore)],
        }
    }

    /// Returns the names of the eventcount and the sequencer.
    fn names(self) -> (&'static str, &'static str) {
        match self {
            Kind::Advances | Kind::Queue => ("E", "T"),
            Kind::Semaphore => ("S.v", "S.p"),
        }
    }

    fn declarations(self, all: &str) -> String {
        match self {
            Kind::Advances => format!("eventcount E signal {all}\n"),
            Kind::Queue => {
                format!("eventcount E signal {all} observe {all}\nsequencer T take {all}\n")
            }
            Kind::Semaphore => format!("semaphore S 1 use {all}\n"),
        }
    }

    /// Returns one eventcount that all workers signal. Except for the advances, all observe it, and share a sequencer.
    fn setup(self, workers: usize) -> Setup {
        let everybody: Vec<u8> = (0..workers as u8).collect();
        let (observe, takers) = match self {
            Kind::Advances => (Members::default(), Vec::new()),
            Kind::Queue | Kind::Semaphore => {
                (Members::new(&everybody), vec![Members::new(&everybody)])
            }
        };
        Setup {
            limit: LIMIT,
            workers,
            events: vec![Rights {
                signal: Members::new(&everybody),
                observe,
                fixed: false,
            }],
            takers,
            cells: Vec::new(),
        }
    }
}

/// Reads the kind, how many workers there are, and how often each repeats its commands.
fn read_words() -> Option<(Kind, usize, u64)> {
    let words: Vec<String> = std::env::args().skip(1).collect();
    let [kind, workers, times] = &words[..] else {
        return None;
    };
    Some((Kind::of(kind)?, workers.parse().ok()?, times.parse().ok()?))
}

fn main() -> ExitCode {
    let Some((kind, workers, times)) = read_words() else {
        return ExitCode::from(2);
    };
    let setup = kind.setup(workers);
    let program = || vec![Command::Repeat(times, kind.commands())];
    let programs: Vec<Vec<Command>> = (0..workers).map(|_| program()).collect();

    let shared = Shared {
        board: Mutex::new(Board::open(setup.clone())),
        sleeps: array::from_fn(|_| Condvar::new()),
    };
    let tolds: Vec<Told> = thread::scope(|scope| {
        let shared = &shared;
        let handles: Vec<_> = (0..)
            .zip(&programs)
            .map(|(worker, program)| scope.spawn(move || work(shared, worker, program)))
            .collect();
        handles
            .into_iter()
            .map(|handle| handle.join().unwrap())
            .collect()
    });
    let run = shared.board.into_inner().unwrap().run;

    let is_right = run.world.setup == setup
        && tolds.len() == workers
        && agree(&run, &tolds)
        && tolds.iter().all(is_told);
    if !is_right {
        return ExitCode::from(5);
    }
    let names: Vec<String> = (0..workers).map(|it| format!("w{it}")).collect();
    if write_trace(&run, kind, &names).is_err() {
        return ExitCode::from(3);
    }
    for (name, told) in names.iter().zip(&tolds) {
        eprintln!("outcome {name} {}", outcome_words(told.outcome));
    }
    ExitCode::SUCCESS
}
