//! A kernel's steps in plain Rust, over the same tables and with the same checks as those of `World` and `Run` in
//! `crates/ec_core`, for the other baselines.

#![allow(dead_code)] // each baseline uses a part

pub const VALUE_MAX: u64 = 999_999_999_999_999_999;
pub const LIMIT: u64 = 4_294_967_295;
const SEGMENT: usize = 4096;

/// A list of different workers, at most 16.
#[derive(Clone, Default, PartialEq, Eq)]
pub struct Members {
    list: [u8; 16],
    len: usize,
}

impl Members {
    pub fn new(workers: &[u8]) -> Self {
        let mut members = Members::default();
        members.list[..workers.len()].copy_from_slice(workers);
        members.len = workers.len();
        members
    }

    fn workers(&self) -> &[u8] {
        &self.list[..self.len]
    }

    fn place(&self, worker: u8) -> Option<usize> {
        self.workers().iter().position(|w| *w == worker)
    }

    fn contains(&self, worker: u8) -> bool {
        self.workers().contains(&worker)
    }

    fn replace(&mut self, place: usize, worker: u8) {
        self.list[..self.len][place] = worker;
    }
}

#[derive(Clone, PartialEq, Eq)]
pub struct Rights {
    pub signal: Members,
    pub observe: Members,
    /// Whether its components can't be transferred.
    pub fixed: bool,
}

#[derive(Clone, PartialEq, Eq)]
pub struct Access {
    pub write: Members,
    pub read: Members,
}

/// What is declared: at most 16 workers, 32 eventcounts, 32 sequencers and 256 cells.
#[derive(Clone, PartialEq, Eq)]
pub struct Setup {
    pub limit: u64,
    pub workers: usize,
    pub events: Vec<Rights>,
    pub takers: Vec<Members>,
    pub cells: Vec<Access>,
}

#[derive(Clone, Copy, PartialEq, Eq)]
pub enum Act {
    Advance(u8),
    Read(u8),
    Await(u8, u64),
    Go,
    Ticket(u8),
    Put(u8, u64),
    Get(u8),
    Hand(u8, u8),
}

#[derive(Clone, Copy, PartialEq, Eq)]
pub enum Reply {
    Done,
    Number(u64),
    Pending,
}

#[derive(Clone, Copy, Debug, PartialEq, Eq)]
pub enum Refusal {
    UnknownWorker,
    Busy,
    Idle,
    UnknownObject,
    NoRight,
    ValueTooLarge,
    AtLimit,
    NotHandable,
    AlreadySignals,
}

#[derive(Clone, Copy, PartialEq, Eq)]
pub struct Entry {
    pub worker: u8,
    pub act: Act,
    pub reply: Reply,
}

/// A count and its limit.
#[derive(Clone, Copy)]
struct Count {
    value: u64,
    limit: u64,
}

impl Count {
    fn advance(&mut self) {
        if self.value < self.limit {
            self.value += 1;
        }
    }
}

/// A pending call: the act that began it, the component that comes next, and the sum so far.
#[derive(Clone, Copy)]
pub struct UnderWay {
    pub op: Act,
    pub index: u8,
    sum: u64,
}

pub struct World {
    pub setup: Setup,
    signal: [Members; 32],
    counts: [[Count; 16]; 32],
    issued: [Count; 32],
    cells: [u64; 256],
    calls: [Option<UnderWay>; 16],
}

fn event_of(act: Act) -> usize {
    match act {
        Act::Advance(event) | Act::Read(event) | Act::Await(event, _) => event as usize,
        _ => 0,
    }
}

impl World {
    pub fn open(setup: Setup) -> Self {
        let zero = Count {
            value: 0,
            limit: setup.limit,
        };
        let mut signal: [Members; 32] = Default::default();
        for (members, rights) in signal.iter_mut().zip(&setup.events) {
            *members = rights.signal.clone();
        }
        World {
            setup,
            signal,
            counts: [[zero; 16]; 32],
            issued: [zero; 32],
            cells: [0; 256],
            calls: [None; 16],
        }
    }

    fn component_of(&self, event: u8, worker: u8) -> Option<usize> {
        self.signal[event as usize].place(worker)
    }

    fn names_unknown_object(&self, act: &Act) -> bool {
        match *act {
            Act::Advance(event) | Act::Read(event) | Act::Await(event, _) => {
                event as usize >= self.setup.events.len()
            }
            Act::Go => false,
            Act::Ticket(sequencer) => sequencer as usize >= self.setup.takers.len(),
            Act::Put(cell, _) | Act::Get(cell) => cell as usize >= self.setup.cells.len(),
            Act::Hand(event, to) => {
                event as usize >= self.setup.events.len() || to as usize >= self.setup.workers
            }
        }
    }

    fn has_right(&self, worker: u8, act: &Act) -> bool {
        let setup = &self.setup;
        match *act {
            Act::Advance(event) | Act::Hand(event, _) => {
                self.component_of(event, worker).is_some()
            }
            Act::Read(event) | Act::Await(event, _) => {
                setup.events[event as usize].observe.contains(worker)
            }
            Act::Go => true,
            Act::Ticket(sequencer) => setup.takers[sequencer as usize].contains(worker),
            Act::Put(cell, _) => setup.cells[cell as usize].write.contains(worker),
            Act::Get(cell) => setup.cells[cell as usize].read.contains(worker),
        }
    }

    fn is_full_for(&self, worker: u8, act: &Act) -> bool {
        let count = match *act {
            Act::Advance(event) => match self.component_of(event, worker) {
                Some(component) => self.counts[event as usize][component],
                None => return false,
            },
            Act::Ticket(sequencer) => self.issued[sequencer as usize],
            _ => return false,
        };
        count.value == count.limit
    }

    fn refusal(&self, worker: u8, act: &Act) -> Option<Refusal> {
        if worker as usize >= self.setup.workers {
            return Some(Refusal::UnknownWorker);
        }
        let is_go = *act == Act::Go;
        let is_under_way = self.calls[worker as usize].is_some();
        if is_under_way && !is_go {
            return Some(Refusal::Busy);
        }
        if !is_under_way && is_go {
            return Some(Refusal::Idle);
        }
        if self.names_unknown_object(act) {
            return Some(Refusal::UnknownObject);
        }
        if !self.has_right(worker, act) {
            return Some(Refusal::NoRight);
        }
        if matches!(*act, Act::Await(_, value) | Act::Put(_, value) if value > VALUE_MAX) {
            return Some(Refusal::ValueTooLarge);
        }
        if self.is_full_for(worker, act) {
            return Some(Refusal::AtLimit);
        }
        if let Act::Hand(event, to) = *act {
            if self.setup.events[event as usize].fixed {
                return Some(Refusal::NotHandable);
            }
            if self.component_of(event, to).is_some() {
                return Some(Refusal::AlreadySignals);
            }
        }
        None
    }

    /// Returns the sum with the component that comes next, and whether that is the last one.
    fn read_on(&self, call: &UnderWay) -> (u64, bool) {
        let event = event_of(call.op);
        let sum = call.sum + self.counts[event][call.index as usize].value;
        let width = self.setup.events[event].signal.len;
        (sum, call.index as usize + 1 >= width)
    }

    fn read_reply(&self, call: &UnderWay) -> Reply {
        match (self.read_on(call), call.op) {
            ((_, false), _) => Reply::Pending,
            ((sum, true), Act::Await(_, threshold)) if sum < threshold => Reply::Pending,
            ((sum, true), _) => Reply::Number(sum),
        }
    }

    fn after_read(&self, call: &UnderWay) -> Option<UnderWay> {
        let op = call.op;
        match (self.read_on(call), op) {
            ((sum, false), _) => Some(UnderWay {
                op,
                index: call.index + 1,
                sum,
            }),
            ((sum, true), Act::Await(_, threshold)) if sum < threshold => Some(begun(op)),
            ((_, true), _) => None,
        }
    }

    fn reply(&self, worker: u8, act: &Act) -> Reply {
        match *act {
            Act::Advance(_) | Act::Put(_, _) | Act::Hand(_, _) => Reply::Done,
            Act::Read(_) | Act::Await(_, _) => self.read_reply(&begun(*act)),
            Act::Go => match &self.calls[worker as usize] {
                Some(call) => self.read_reply(call),
                None => Reply::Pending,
            },
            Act::Ticket(sequencer) => Reply::Number(self.issued[sequencer as usize].value),
            Act::Get(cell) => Reply::Number(self.cells[cell as usize]),
        }
    }

    fn take_in(&mut self, worker: u8, act: &Act) {
        match *act {
            Act::Advance(event) => {
                if let Some(component) = self.component_of(event, worker) {
                    self.counts[event as usize][component].advance();
                }
            }
            Act::Read(_) | Act::Await(_, _) => {
                self.calls[worker as usize] = self.after_read(&begun(*act));
            }
            Act::Go => {
                let call = self.calls[worker as usize];
                self.calls[worker as usize] = call.and_then(|call| self.after_read(&call));
            }
            Act::Ticket(sequencer) => self.issued[sequencer as usize].advance(),
            Act::Put(cell, value) => self.cells[cell as usize] = value,
            Act::Get(_) => {}
            Act::Hand(event, to) => {
                if let Some(component) = self.component_of(event, worker) {
                    self.signal[event as usize].replace(component, to);
                }
            }
        }
    }

    /// Returns the total of an eventcount.
    pub fn total(&self, event: u8) -> u64 {
        let width = self.setup.events[event as usize].signal.len;
        let counts = &self.counts[event as usize][..width];
        counts.iter().map(|count| count.value).sum()
    }

    /// Returns how many tickets of a sequencer were drawn.
    pub fn issued(&self, sequencer: u8) -> u64 {
        self.issued[sequencer as usize].value
    }

    /// Returns the worker's pending call.
    pub fn under_way(&self, worker: u8) -> Option<UnderWay> {
        self.calls[worker as usize]
    }

    /// Returns what a step would answer, and changes nothing.
    pub fn answer(&self, worker: u8, act: &Act) -> Result<Reply, Refusal> {
        match self.refusal(worker, act) {
            Some(refusal) => Err(refusal),
            None => Ok(self.reply(worker, act)),
        }
    }
}

fn begun(op: Act) -> UnderWay {
    UnderWay {
        op,
        index: 0,
        sum: 0,
    }
}

/// A world and its entries, in segments, so that recording a step never moves what was recorded.
pub struct Run {
    pub world: World,
    full: Vec<Vec<Entry>>,
    last: Vec<Entry>,
}

impl Run {
    pub fn open(setup: Setup) -> Self {
        Run {
            world: World::open(setup),
            full: Vec::new(),
            last: Vec::with_capacity(SEGMENT),
        }
    }

    pub fn len(&self) -> usize {
        self.full.len() * SEGMENT + self.last.len()
    }

    pub fn entries(&self) -> impl Iterator<Item = &Entry> {
        self.full.iter().flatten().chain(&self.last)
    }
}

/// What takes steps.
pub trait Steps {
    fn step(&mut self, worker: u8, act: Act) -> Result<Reply, Refusal>;

    fn world(&self) -> &World;
}

impl Steps for World {
    fn step(&mut self, worker: u8, act: Act) -> Result<Reply, Refusal> {
        let reply = self.answer(worker, &act)?;
        self.take_in(worker, &act);
        Ok(reply)
    }

    fn world(&self) -> &World {
        self
    }
}

impl Steps for Run {
    fn step(&mut self, worker: u8, act: Act) -> Result<Reply, Refusal> {
        let reply = self.world.answer(worker, &act)?;
        if self.last.len() == SEGMENT {
            let filled = std::mem::replace(&mut self.last, Vec::with_capacity(SEGMENT));
            self.full.push(filled);
        }
        self.last.push(Entry { worker, act, reply });
        self.world.take_in(worker, &act);
        Ok(reply)
    }

    fn world(&self) -> &World {
        &self.world
    }
}
