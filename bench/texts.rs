//! A baseline for `evc check`, `evc audit` and `evc upgrade`: the same texts, notes and statuses in plain Rust, by one pass
//! over the trace. It is written for speed, and from the formats only (docs/REFERENCE.md), so that it is a second opinion too.
//!
//! A trace is streamed once. Words are found in small tables by their bytes, eight at a time, and each entry is judged by a world
//! of small tables. A `Watcher` keeps what its text needs: `check` two bytes for each entry, and a number for each put and
//! await; `audit` the lines of its groups in numbers; `upgrade` the text. Nothing is written before the whole trace was read.

use std::collections::HashSet;
use std::fs::File;
use std::io::{self, Read, Write};
use std::os::fd::AsFd;
use std::process::exit;

const WORKERS: usize = 16;
const EVENTS: usize = 32;
const SEQUENCERS: usize = 32;
const CELLS: usize = 256;
const MOST_INITIAL: u64 = 1_000_000;
const LIMITS: [u64; 2] = [4_294_967_295, 281_474_976_710_655];
const LINE: usize = 8192;
const TEXT: usize = 67_108_864;
const PIECE: usize = 1 << 16;
/// Bytes after the text in a table, so that eight can be read from any position of a line.
const ROOM: usize = 64;

const RESERVED: &str = "advance await both buffer cells consume database done end eventcount get go hand last limit observe p \
                        pboth pending produce put read repeat run schedule semaphore sequencer signal snapshot take ticket use v \
                        worker workers write";

// The acts, by the number that `verb_of` makes of their first two letters.
const GET: u8 = 0;
const READ: u8 = 1;
const GO: u8 = 2;
const PUT: u8 = 3;
const TICKET: u8 = 4;
const ADVANCE: u8 = 5;
const HAND: u8 = 6;
const AWAIT: u8 = 7;
const VERBS: [&str; 8] = ["get ", "read ", "go ", "put ", "ticket ", "advance ", "hand ", "await "];

// The replies that are no numbers.
const DONE: u64 = u64::MAX;
const PENDING: u64 = u64::MAX - 1;

const NONE: u8 = 255;

enum Fault {
    BadLine(usize),
    Refused(usize, &'static str),
    WrongReply(usize, u64),
    Unfinished,
    TooLarge,
    Read,
}

const BUSY: &str = "2 Busy";
const IDLE: &str = "3 Idle";
const NO_RIGHT: &str = "5 NoRight";
const AT_LIMIT: &str = "7 AtLimit";
const NOT_HANDABLE: &str = "8 NotHandable";
const ALREADY_SIGNALS: &str = "9 AlreadySignals";

// Bytes, eight at a time

#[inline(always)]
fn load(text: &[u8], at: usize) -> u64 {
    u64::from_le_bytes(text[at..at + 8].try_into().unwrap())
}

const fn repeated(byte: u8) -> u64 {
    0x0101_0101_0101_0101 * byte as u64
}

/// Returns how many bits are before the first space among eight bytes, or 64 if there is none.
#[inline(always)]
fn bits_to_space(bytes: u64) -> u32 {
    let other = bytes ^ repeated(b' ');
    let found = other.wrapping_sub(repeated(1)) & !other & repeated(0x80);
    found.trailing_zeros() & !7
}

/// Returns the bytes up to and including the one that begins at this bit.
#[inline(always)]
fn front(bytes: u64, bits: u32) -> u64 {
    bytes & (u64::MAX >> (56 - bits))
}

/// Returns the number that begins here, and the position after it, or 0 if there is no number of at most 18 digits.
#[inline(always)]
fn number(text: &[u8], at: usize) -> (u64, usize) {
    let digits = load(text, at) ^ repeated(b'0');
    let others = (digits.wrapping_add(repeated(6)) | digits) & repeated(0xf0);
    if others == 0 {
        return long_number(text, at);
    }
    let bits = others.trailing_zeros() & !7;
    if bits == 0 || (bits > 8 && digits & 0xff == 0) {
        return (0, 0);
    }
    let ones = digits << (64 - bits);
    let tens = (ones.wrapping_mul(10).wrapping_add(ones >> 8)) & 0x00ff_00ff_00ff_00ff;
    let hundreds = (tens.wrapping_mul(100).wrapping_add(tens >> 16)) & 0x0000_ffff_0000_ffff;
    let whole = (hundreds.wrapping_mul(10_000).wrapping_add(hundreds >> 32)) & 0xffff_ffff;
    (whole, at + (bits / 8) as usize)
}

#[cold]
fn long_number(text: &[u8], at: usize) -> (u64, usize) {
    let digits = text[at..at + 19].iter().take_while(|it| it.is_ascii_digit()).count();
    if digits > 18 || text[at] == b'0' {
        return (0, 0);
    }
    (text[at..at + digits].iter().fold(0, |sum, digit| 10 * sum + u64::from(digit - b'0')), at + digits)
}

// Tables of words

/// A table of words, each with the space after it, and what each names. Words of at most seven bytes are found by eight
/// bytes at once, the others by twenty-four.
struct Words {
    factor: u64,
    short: Vec<(u64, u16)>,
    long: Vec<([u64; 3], u16)>,
}

const UNKNOWN: u16 = u16::MAX;

/// More slots than any table of words fills.
const LONG_PLACES: usize = 1024;

impl Words {
    fn new(words: &[(Vec<u8>, u16)]) -> Words {
        let keys: Vec<_> = words.iter().map(|(word, what)| (key_of(word), *what)).collect();
        let short: Vec<_> = keys.iter().filter(|(key, _)| bits_to_space(key[0]) < 64).map(|(key, what)| (key[0], *what)).collect();
        let places = (8 * short.len()).next_power_of_two().max(16);
        let factor = best_factor(&short, places);
        let mut table = Words { factor, short: vec![(0, UNKNOWN); places], long: vec![([0; 3], UNKNOWN); LONG_PLACES] };
        for (key, what) in keys {
            if bits_to_space(key[0]) < 64 {
                let at = table.short_place(key[0]);
                table.short[at] = (key[0], what);
            } else {
                let at = table.long_place(&key);
                table.long[at] = (key, what);
            }
        }
        table
    }

    #[inline(always)]
    fn short_place(&self, key: u64) -> usize {
        let last = self.short.len() - 1;
        let mut at = spread(key, self.factor) & last;
        while self.short[at].0 != key && self.short[at].0 != 0 {
            at = (at + 1) & last;
        }
        at
    }

    fn long_place(&self, key: &[u64; 3]) -> usize {
        let mixed = key[0] ^ key[1].wrapping_mul(3) ^ key[2].wrapping_mul(5);
        let mut at = spread(mixed, self.factor) % LONG_PLACES;
        while self.long[at].0 != *key && self.long[at].0[0] != 0 {
            at = (at + 1) % LONG_PLACES;
        }
        at
    }

    /// Returns what the word that begins here names, and the position after its space.
    #[inline(always)]
    fn find(&self, text: &[u8], at: usize) -> (u16, usize) {
        let bytes = load(text, at);
        let bits = bits_to_space(bytes);
        if bits == 64 {
            return self.find_long(text, at);
        }
        let place = self.short_place(front(bytes, bits));
        (self.short[place].1, at + (bits / 8) as usize + 1)
    }

    #[inline(never)]
    fn find_long(&self, text: &[u8], at: usize) -> (u16, usize) {
        let Some(length) = text[at..at + 24].iter().position(|it| *it == b' ') else {
            return (UNKNOWN, at);
        };
        let place = self.long_place(&key_of(&text[at..at + length]));
        (self.long[place].1, at + length + 1)
    }
}

#[inline(always)]
fn spread(key: u64, factor: u64) -> usize {
    (key.wrapping_mul(factor) >> 48) as usize
}

/// Returns the bytes of a word with the space after it.
fn key_of(word: &[u8]) -> [u64; 3] {
    let mut bytes = [0; 24];
    bytes[..word.len()].copy_from_slice(word);
    bytes[word.len()] = b' ';
    [load(&bytes, 0), load(&bytes, 8), load(&bytes, 16)]
}

/// Returns a factor with which few words, or none, collide.
fn best_factor(short: &[(u64, u16)], places: usize) -> u64 {
    let (mut best, mut least) = (1, usize::MAX);
    for factor in (1..32u64).map(|it| it.wrapping_mul(0x9e37_79b9_7f4a_7c15) | 1) {
        let crowded = crowding(short, factor, places);
        if crowded < least {
            (best, least) = (factor, crowded);
        }
        if least == 0 {
            break;
        }
    }
    best
}

/// Returns how many words of a table collide.
fn crowding(short: &[(u64, u16)], factor: u64, places: usize) -> usize {
    let mut taken = vec![false; places];
    short.iter().filter(|(key, _)| std::mem::replace(&mut taken[spread(*key, factor) & (places - 1)], true)).count()
}

// Declarations

#[derive(Clone, Copy, PartialEq)]
enum Kind {
    Buffer,
    Database,
    Semaphore,
    Both,
}

/// A group: its first eventcount, sequencer and cell, how many cells it has, the initial value, and the workers of its first
/// list as bits.
#[derive(Clone)]
struct Group {
    kind: Kind,
    name: String,
    event: usize,
    sequencer: usize,
    cell: usize,
    cells: usize,
    initial: u64,
    first: u16,
}

#[derive(Clone, Copy)]
enum Object {
    Event(usize),
    Sequencer(usize),
    Cell(usize),
}

struct Heading {
    version: usize,
    limit: u64,
    workers: Vec<String>,
    taken: HashSet<String>,
    events: Vec<(String, Vec<usize>, u16, bool)>,
    sequencers: Vec<(String, u16)>,
    cells: Vec<(String, u16, u16)>,
    groups: Vec<Group>,
    order: Vec<Object>,
    declarations: Vec<String>,
    lines: usize,
}

fn heading_number(word: &str, least: u64, most: u64) -> Option<u64> {
    let formed = word.len() <= 18 && word.bytes().all(|it| it.is_ascii_digit()) && (word == "0" || !word.starts_with('0'));
    let number = if formed { word.parse().ok()? } else { return None };
    (least..=most).contains(&number).then_some(number)
}

fn is_name(word: &str) -> bool {
    let letters = word.bytes().all(|it| it.is_ascii_alphanumeric() || it == b'_');
    let begins = word.bytes().next().is_some_and(|it| it.is_ascii_alphabetic());
    letters && begins && word.len() <= 16 && !RESERVED.split(' ').any(|it| it == word)
}

fn bits_of(list: &[usize]) -> u16 {
    list.iter().fold(0, |bits, worker| bits | 1 << worker)
}

fn joined(first: &[usize], second: &[usize]) -> u16 {
    bits_of(first) | bits_of(second)
}

impl Heading {
    fn new() -> Heading {
        Heading {
            version: 0,
            limit: 0,
            workers: Vec::new(),
            taken: HashSet::new(),
            events: Vec::new(),
            sequencers: Vec::new(),
            cells: Vec::new(),
            groups: Vec::new(),
            order: Vec::new(),
            declarations: Vec::new(),
            lines: 0,
        }
    }

    /// Reads the next line. Returns whether it was the last of the header, or `None` if it is a bad line.
    fn line(&mut self, line: &[u8]) -> Option<bool> {
        self.lines += 1;
        let line = std::str::from_utf8(line).ok()?;
        match self.lines {
            1 => self.version = ["evc-trace 1", "evc-trace 2"].iter().position(|it| *it == line)? + 1,
            2 => self.limit = heading_number(line.strip_prefix("limit ")?, 1, LIMITS[self.version - 1])?,
            3 => self.declare_workers(line.strip_prefix("workers ")?)?,
            _ if line == "run" => return Some(true),
            _ => {
                self.declare(&line.split(' ').collect::<Vec<_>>())?;
                self.declarations.push(line.to_string());
            }
        }
        Some(false)
    }

    fn declare_workers(&mut self, names: &str) -> Option<()> {
        for name in names.split(' ') {
            self.name(name)?;
            self.workers.push(name.to_string());
        }
        (self.workers.len() <= WORKERS).then_some(())
    }

    fn name(&mut self, name: &str) -> Option<()> {
        (is_name(name) && self.taken.insert(name.to_string())).then_some(())
    }

    /// Reads a list of declared workers, each once, and at least one.
    fn list(&self, words: &[&str]) -> Option<Vec<usize>> {
        let mut list = Vec::new();
        for word in words {
            let worker = self.workers.iter().position(|it| it == word)?;
            if list.contains(&worker) {
                return None;
            }
            list.push(worker);
        }
        (!list.is_empty()).then_some(list)
    }

    /// Reads two lists, the second after the word that begins it.
    fn lists(&self, words: &[&str], opening: &str) -> Option<(Vec<usize>, Option<Vec<usize>>)> {
        match words.iter().position(|it| *it == opening) {
            Some(at) => Some((self.list(&words[..at])?, Some(self.list(&words[at + 1..])?))),
            None => Some((self.list(words)?, None)),
        }
    }

    fn declare(&mut self, words: &[&str]) -> Option<()> {
        match words {
            ["eventcount", name, "signal", rest @ ..] => {
                let (signal, observe) = self.lists(rest, "observe")?;
                self.name(name)?;
                self.add_event(name.to_string(), signal, bits_of(&observe.unwrap_or_default()), true)
            }
            ["sequencer", name, "take", rest @ ..] => {
                let take = self.list(rest)?;
                self.name(name)?;
                self.add_sequencer(name.to_string(), bits_of(&take))
            }
            ["cells", name, n, "write", rest @ ..] => {
                let (write, read) = self.lists(rest, "read")?;
                self.name(name)?;
                self.add_cells(name, n, bits_of(&write), bits_of(&read.unwrap_or_default()))?;
                Some(())
            }
            ["buffer", name, n, "produce", rest @ ..] => self.declare_buffer(name, n, rest),
            ["database", name, n, "write", rest @ ..] => self.declare_database(name, n, rest),
            ["semaphore", name, initial, "use", rest @ ..] => {
                self.name(name)?;
                self.declare_semaphore(Kind::Semaphore, name, heading_number(initial, 0, MOST_INITIAL)?, rest)
            }
            ["both", "use", rest @ ..] => {
                let new = self.taken.insert("both".to_string());
                if new { self.declare_semaphore(Kind::Both, "both", 1, rest) } else { None }
            }
            _ => None,
        }
    }

    fn declare_buffer(&mut self, name: &str, n: &str, lists: &[&str]) -> Option<()> {
        let (makers, takers) = self.roles(lists, "consume")?;
        self.begin_group(Kind::Buffer, name, 0, &makers)?;
        self.add_event(format!("{name}.in"), makers.clone(), joined(&makers, &takers), false)?;
        self.add_event(format!("{name}.out"), takers.clone(), joined(&makers, &takers), false)?;
        self.add_sequencer(format!("{name}.put"), bits_of(&makers))?;
        self.add_sequencer(format!("{name}.take"), bits_of(&takers))?;
        self.groups.last_mut()?.cells = self.add_cells(name, n, bits_of(&makers), bits_of(&takers))?;
        Some(())
    }

    fn declare_database(&mut self, name: &str, n: &str, lists: &[&str]) -> Option<()> {
        let (writers, readers) = self.roles(lists, "read")?;
        self.begin_group(Kind::Database, name, 0, &writers)?;
        self.add_event(format!("{name}.start"), writers.clone(), bits_of(&readers), false)?;
        self.add_event(format!("{name}.done"), writers.clone(), joined(&writers, &readers), false)?;
        self.add_sequencer(format!("{name}.turn"), bits_of(&writers))?;
        self.groups.last_mut()?.cells = self.add_cells(name, n, bits_of(&writers), bits_of(&readers))?;
        Some(())
    }

    /// Reads the two lists of a group, which share no worker.
    fn roles(&self, lists: &[&str], opening: &str) -> Option<(Vec<usize>, Vec<usize>)> {
        let (first, second) = self.lists(lists, opening)?;
        let second = second?;
        (bits_of(&first) & bits_of(&second) == 0).then_some((first, second))
    }

    fn declare_semaphore(&mut self, kind: Kind, name: &str, initial: u64, users: &[&str]) -> Option<()> {
        let users = self.list(users)?;
        self.push_group(kind, name, initial, &users);
        self.add_event(format!("{name}.v"), users.clone(), bits_of(&users), false)?;
        self.add_sequencer(format!("{name}.p"), bits_of(&users))
    }

    fn begin_group(&mut self, kind: Kind, name: &str, initial: u64, first: &[usize]) -> Option<()> {
        self.name(name)?;
        self.push_group(kind, name, initial, first);
        Some(())
    }

    fn push_group(&mut self, kind: Kind, name: &str, initial: u64, first: &[usize]) {
        let (event, sequencer, cell) = (self.events.len(), self.sequencers.len(), self.cells.len());
        let name = name.to_string();
        self.groups.push(Group { kind, name, event, sequencer, cell, cells: 0, initial, first: bits_of(first) });
    }

    fn add_event(&mut self, name: String, signal: Vec<usize>, observe: u16, raw: bool) -> Option<()> {
        self.order.push(Object::Event(self.events.len()));
        self.events.push((name, signal, observe, raw));
        (self.events.len() <= EVENTS).then_some(())
    }

    fn add_sequencer(&mut self, name: String, take: u16) -> Option<()> {
        self.order.push(Object::Sequencer(self.sequencers.len()));
        self.sequencers.push((name, take));
        (self.sequencers.len() <= SEQUENCERS).then_some(())
    }

    fn add_cells(&mut self, name: &str, n: &str, write: u16, read: u16) -> Option<usize> {
        let n = heading_number(n, 1, CELLS as u64)? as usize;
        for place in 0..n {
            self.order.push(Object::Cell(self.cells.len()));
            self.cells.push((format!("{name}[{place}]"), write, read));
        }
        (self.cells.len() <= CELLS).then_some(n)
    }

    fn object_words(&self) -> Vec<(Vec<u8>, u16)> {
        let word = |(id, name): (usize, &String), kind: u16| (name.clone().into_bytes(), kind | id as u16);
        let events = self.events.iter().map(|it| &it.0).enumerate().map(|it| word(it, EVENT_WORD));
        let sequencers = self.sequencers.iter().map(|it| &it.0).enumerate().map(|it| word(it, SEQUENCER_WORD));
        let cells = self.cells.iter().map(|it| &it.0).enumerate().map(|it| word(it, CELL_WORD));
        events.chain(sequencers).chain(cells).collect()
    }

    fn worker_words(&self) -> Vec<(Vec<u8>, u16)> {
        self.workers.iter().enumerate().map(|(id, name)| (name.clone().into_bytes(), id as u16)).collect()
    }
}

// What the word of an object names: its sort, and its number in the low byte.
const EVENT_WORD: u16 = 0;
const SEQUENCER_WORD: u16 = 0x100;
const CELL_WORD: u16 = 0x200;

// Entries

/// What a worker asked for: the act, the number of its object (of a hand also the receiver's, from bit 5), and its value.
#[derive(Clone, Copy)]
struct Call {
    act: u8,
    object: u16,
    value: u64,
}

/// The words of a trace and their tables.
struct Reader {
    workers: Words,
    objects: Words,
    verbs: [(u64, u64, usize); 8],
    has_hands: bool,
}

impl Reader {
    fn new(heading: &Heading) -> Reader {
        let verb = |word: &str| {
            let mut bytes = [0; 8];
            bytes[..word.len()].copy_from_slice(word.as_bytes());
            (load(&bytes, 0), u64::MAX >> (64 - 8 * word.len()), word.len())
        };
        Reader {
            workers: Words::new(&heading.worker_words()),
            objects: Words::new(&heading.object_words()),
            verbs: VERBS.map(verb),
            has_hands: heading.version == 2,
        }
    }

    /// Reads the entry that begins here: its worker, its call, its reply, and the position after its line.
    #[inline(always)]
    fn entry(&self, text: &[u8], at: usize) -> Option<(usize, Call, u64, usize)> {
        let (worker, at) = self.workers.find(text, at);
        if worker == UNKNOWN {
            return None;
        }
        let bytes = load(text, at);
        let act = verb_of(bytes);
        let (verb, mask, length) = self.verbs[act as usize];
        if bytes & mask != verb {
            return None;
        }
        let (call, at) = self.call(text, at + length, act)?;
        if text[at..at + 2] != *b"= " {
            return None;
        }
        let (reply, at) = reply_of(text, at + 2)?;
        Some((worker as usize, call, reply, at))
    }

    /// Reads the object and the value of an act, and returns the position after them and a space.
    #[inline(always)]
    fn call(&self, text: &[u8], at: usize, act: u8) -> Option<(Call, usize)> {
        if act == GO {
            return Some((Call { act, object: 0, value: 0 }, at));
        }
        let (word, at) = self.objects.find(text, at);
        if word & 0xff00 != SORTS[act as usize] {
            return None;
        }
        if act == AWAIT || act == PUT {
            let (value, behind) = number(text, at);
            return (behind != 0 && text[behind] == b' ').then_some((Call { act, object: word & 0xff, value }, behind + 1));
        }
        if act == HAND {
            let (receiver, behind) = self.workers.find(text, at);
            let object = word & 31 | (receiver & 15) << 5;
            return (receiver != UNKNOWN && self.has_hands).then_some((Call { act, object, value: 0 }, behind));
        }
        Some((Call { act, object: word & 0xff, value: 0 }, at))
    }
}

/// The sort of the object of each act.
const SORTS: [u16; 8] =
    [CELL_WORD, EVENT_WORD, UNKNOWN, CELL_WORD, SEQUENCER_WORD, EVENT_WORD, EVENT_WORD, EVENT_WORD];

/// Returns the act whose first two letters these may be.
#[inline(always)]
fn verb_of(bytes: u64) -> u8 {
    ((((bytes as u32 & 0xffff) * 149) >> 11) & 7) as u8
}

const DONE_LINE: u64 = u64::from_le_bytes(*b"done\n\0\0\0");
const PENDING_LINE: u64 = u64::from_le_bytes(*b"pending\n");

/// Reads the reply that ends a line here, and returns the position after the line.
#[inline(always)]
fn reply_of(text: &[u8], at: usize) -> Option<(u64, usize)> {
    let bytes = load(text, at);
    if bytes & 0xff_ffff_ffff == DONE_LINE {
        return Some((DONE, at + 5));
    }
    if bytes == PENDING_LINE {
        return Some((PENDING, at + 8));
    }
    let (reply, behind) = number(text, at);
    (behind != 0 && text[behind] == b'\n').then_some((reply, behind + 1))
}

// The world

/// A pending read or await: its call, the component that the next go reads, the sum of the round, the position at which
/// the round began and the total of that moment. The act is GO if none is pending.
#[derive(Clone, Copy)]
struct Going {
    call: Call,
    index: usize,
    sum: u64,
    round: u32,
    before: u64,
}

struct World {
    limit: u64,
    components: [[u64; WORKERS]; EVENTS],
    lengths: [usize; EVENTS],
    totals: [u64; EVENTS],
    signal: [[u8; WORKERS]; EVENTS],
    observe: [u16; EVENTS],
    raw: [bool; EVENTS],
    issued: [u64; SEQUENCERS],
    take: [u16; SEQUENCERS],
    cells: [u64; CELLS],
    write: [u16; CELLS],
    read: [u16; CELLS],
    going: [Going; WORKERS],
}

/// Why an entry is wrong.
enum Wrong {
    Refused(&'static str),
    Reply(u64),
}

impl World {
    fn new(heading: &Heading) -> World {
        let idle = Going { call: Call { act: GO, object: 0, value: 0 }, index: 0, sum: 0, round: 0, before: 0 };
        let mut world = World {
            limit: heading.limit,
            components: [[0; WORKERS]; EVENTS],
            lengths: [0; EVENTS],
            totals: [0; EVENTS],
            signal: [[NONE; WORKERS]; EVENTS],
            observe: [0; EVENTS],
            raw: [false; EVENTS],
            issued: [0; SEQUENCERS],
            take: [0; SEQUENCERS],
            cells: [0; CELLS],
            write: [0; CELLS],
            read: [0; CELLS],
            going: [idle; WORKERS],
        };
        for (event, (_, signal, observe, raw)) in heading.events.iter().enumerate() {
            (world.lengths[event], world.observe[event], world.raw[event]) = (signal.len(), *observe, *raw);
            for (component, worker) in signal.iter().enumerate() {
                world.signal[event][*worker] = component as u8;
            }
        }
        for (sequencer, (_, take)) in heading.sequencers.iter().enumerate() {
            world.take[sequencer] = *take;
        }
        for (cell, (_, write, read)) in heading.cells.iter().enumerate() {
            (world.write[cell], world.read[cell]) = (*write, *read);
        }
        world
    }

    /// Makes the step of an entry if it is right, and shows it to the watcher.
    #[inline(always)]
    fn step<W: Watcher>(&mut self, at: u32, worker: usize, call: Call, reply: u64, watcher: &mut W) -> Result<(), Wrong> {
        let worker = worker & 15;
        if call.act == GO {
            return self.go(at, worker, reply, watcher);
        }
        if self.going[worker].call.act != GO {
            return Err(Wrong::Refused(BUSY));
        }
        match call.act {
            ADVANCE => self.advance(worker, call.object, reply)?,
            READ | AWAIT => return self.begin(at, worker, call, reply, watcher),
            TICKET => self.ticket(worker, call.object, reply)?,
            PUT => self.put(worker, call, reply)?,
            GET => self.get(worker, call.object, reply)?,
            _ => self.hand(worker, call.object, reply)?,
        }
        watcher.whole(at, worker, call, reply);
        Ok(())
    }

    #[inline(always)]
    fn advance(&mut self, worker: usize, event: u16, reply: u64) -> Result<(), Wrong> {
        let event = event as usize & 31;
        let component = self.signal[event][worker];
        if component == NONE {
            return Err(Wrong::Refused(NO_RIGHT));
        }
        let count = &mut self.components[event][component as usize & 15];
        if *count == self.limit {
            return Err(Wrong::Refused(AT_LIMIT));
        }
        *count += 1;
        self.totals[event] += 1;
        judge(reply, DONE)
    }

    #[inline(always)]
    fn ticket(&mut self, worker: usize, sequencer: u16, reply: u64) -> Result<(), Wrong> {
        let sequencer = sequencer as usize & 31;
        if self.take[sequencer] >> worker & 1 == 0 {
            return Err(Wrong::Refused(NO_RIGHT));
        }
        let number = self.issued[sequencer];
        if number == self.limit {
            return Err(Wrong::Refused(AT_LIMIT));
        }
        self.issued[sequencer] = number + 1;
        judge(reply, number)
    }

    #[inline(always)]
    fn put(&mut self, worker: usize, call: Call, reply: u64) -> Result<(), Wrong> {
        let cell = call.object as usize & 255;
        if self.write[cell] >> worker & 1 == 0 {
            return Err(Wrong::Refused(NO_RIGHT));
        }
        self.cells[cell] = call.value;
        judge(reply, DONE)
    }

    #[inline(always)]
    fn get(&mut self, worker: usize, cell: u16, reply: u64) -> Result<(), Wrong> {
        let cell = cell as usize & 255;
        if self.read[cell] >> worker & 1 == 0 {
            return Err(Wrong::Refused(NO_RIGHT));
        }
        judge(reply, self.cells[cell])
    }

    fn hand(&mut self, worker: usize, object: u16, reply: u64) -> Result<(), Wrong> {
        let (event, receiver) = (object as usize & 31, object as usize >> 5 & 15);
        let component = self.signal[event][worker];
        if component == NONE {
            return Err(Wrong::Refused(NO_RIGHT));
        }
        if !self.raw[event] {
            return Err(Wrong::Refused(NOT_HANDABLE));
        }
        if self.signal[event][receiver] != NONE {
            return Err(Wrong::Refused(ALREADY_SIGNALS));
        }
        self.signal[event][worker] = NONE;
        self.signal[event][receiver] = component;
        judge(reply, DONE)
    }

    #[inline(always)]
    fn begin<W: Watcher>(&mut self, at: u32, worker: usize, call: Call, reply: u64, watcher: &mut W) -> Result<(), Wrong> {
        let event = call.object as usize & 31;
        if self.observe[event] >> worker & 1 == 0 {
            return Err(Wrong::Refused(NO_RIGHT));
        }
        let (sum, length) = (self.components[event][0], self.lengths[event]);
        if length == 1 && sum >= call.value {
            judge(reply, sum)?;
            watcher.whole(at, worker, call, reply);
            return Ok(());
        }
        judge(reply, PENDING)?;
        let index = if length == 1 { 0 } else { 1 };
        self.going[worker] = Going { call, index, sum, round: at, before: self.totals[event] };
        watcher.begun(worker, call, &self.going[worker], at);
        Ok(())
    }

    #[inline(always)]
    fn go<W: Watcher>(&mut self, at: u32, worker: usize, reply: u64, watcher: &mut W) -> Result<(), Wrong> {
        let going = &mut self.going[worker];
        if going.call.act == GO {
            return Err(Wrong::Refused(IDLE));
        }
        let event = going.call.object as usize & 31;
        if going.index == 0 {
            (going.sum, going.round, going.before) = (0, at, self.totals[event]);
        }
        going.sum += self.components[event][going.index & 15];
        going.index += 1;
        if going.index < self.lengths[event] {
            judge(reply, PENDING)?;
            watcher.went_on();
        } else if going.sum < going.call.value {
            going.index = 0;
            judge(reply, PENDING)?;
            watcher.went_on();
        } else {
            judge(reply, going.sum)?;
            watcher.ended(at, worker, going);
            going.call.act = GO;
        }
        Ok(())
    }
}

#[inline(always)]
fn judge(reply: u64, right: u64) -> Result<(), Wrong> {
    if reply == right { Ok(()) } else { Err(Wrong::Reply(right)) }
}

/// What is shown the entries of a trace as they are streamed, and keeps what a text needs.
trait Watcher {
    fn new(heading: &Heading) -> Self;
    /// Bytes of the trace, before their lines are judged.
    fn text(&mut self, _lines: &[u8]) {}
    /// A call of one entry.
    fn whole(&mut self, at: u32, worker: usize, call: Call, reply: u64);
    /// The first entry of a call of several.
    fn begun(&mut self, worker: usize, call: Call, going: &Going, at: u32);
    /// An entry in the middle of a call.
    fn went_on(&mut self);
    /// The last entry of a call of several.
    fn ended(&mut self, at: u32, worker: usize, going: &Going);
    /// Writes the text, or returns the note if there is one instead.
    fn write(self, heading: &Heading, world: &World, out: &mut Out) -> Result<(), String>;
}

// Reading the input

/// Standard input in pieces of whole lines.
struct Input {
    file: File,
    bytes: Vec<u8>,
    begin: usize,
    end: usize,
    taken: usize,
    fault: Option<Fault>,
}

impl Input {
    /// Reads more after what is left. Returns whether there was more, and keeps why there was not.
    fn fill(&mut self) -> bool {
        self.bytes.copy_within(self.begin..self.end, 0);
        (self.end, self.begin) = (self.end - self.begin, 0);
        let most = PIECE.min(TEXT - self.taken).max(1);
        match self.file.read(&mut self.bytes[self.end..self.end + most]) {
            Ok(0) => self.fault = Some(Fault::Unfinished),
            Err(_) => self.fault = Some(Fault::Read),
            Ok(_) if self.taken == TEXT => self.fault = Some(Fault::TooLarge),
            Ok(read) => {
                (self.end, self.taken) = (self.end + read, self.taken + read);
                return true;
            }
        }
        false
    }

    /// Returns the position after the last complete line.
    fn lines_end(&self) -> usize {
        let lines = self.bytes[self.begin..self.end].iter().rposition(|it| *it == b'\n');
        lines.map_or(self.begin, |last| self.begin + last + 1)
    }
}

/// What is done with the lines of a trace.
struct Pass<W> {
    heading: Heading,
    body: Option<(Reader, World, W)>,
    entries: u32,
    ended: bool,
}

impl<W: Watcher> Pass<W> {
    fn line(&self) -> usize {
        self.heading.lines + self.entries as usize + usize::from(self.ended)
    }

    /// Reads the trace to its end.
    fn read(input: &mut Input) -> Result<(Heading, World, W), Fault> {
        let mut pass = Pass { heading: Heading::new(), body: None, entries: 0, ended: false };
        while input.fill() {
            let stop = input.lines_end();
            pass.lines(&input.bytes, input.begin, stop)?;
            input.begin = stop;
            let rest = input.end - stop;
            if rest > LINE || (pass.ended && rest > 0) {
                return Err(Fault::BadLine(pass.line() + 1));
            }
        }
        match (input.fault.take(), pass.body) {
            (Some(Fault::Unfinished), Some((_, world, watcher))) if pass.ended => Ok((pass.heading, world, watcher)),
            (fault, _) => Err(fault.unwrap_or(Fault::Unfinished)),
        }
    }

    /// Reads complete lines.
    fn lines(&mut self, text: &[u8], mut at: usize, stop: usize) -> Result<(), Fault> {
        while at < stop && self.body.is_none() {
            let end = line_end(text, at);
            match self.heading.line(&text[at..end]) {
                None => return Err(Fault::BadLine(self.heading.lines)),
                Some(false) => at = end + 1,
                Some(true) => {
                    self.begin_body();
                    at = end + 1;
                }
            }
        }
        if at == stop {
            return Ok(());
        }
        if self.ended {
            return Err(Fault::BadLine(self.line() + 1));
        }
        self.entries(text, at, stop)
    }

    fn begin_body(&mut self) {
        let watcher = W::new(&self.heading);
        self.body = Some((Reader::new(&self.heading), World::new(&self.heading), watcher));
    }

    fn entries(&mut self, text: &[u8], mut at: usize, stop: usize) -> Result<(), Fault> {
        let Some((reader, world, watcher)) = &mut self.body else { return Ok(()) };
        watcher.text(&text[at..stop]);
        let mut entries = self.entries;
        while at < stop {
            let Some((worker, call, reply, next)) = reader.entry(text, at) else {
                self.entries = entries;
                return self.odd_line(text, at, stop);
            };
            if let Err(wrong) = world.step(entries, worker, call, reply, watcher) {
                self.entries = entries;
                return Err(fault_of(wrong, self.line() + 1));
            }
            entries += 1;
            at = next;
        }
        self.entries = entries;
        Ok(())
    }

    /// Reads a line that is no entry: the last line, or a bad one.
    #[cold]
    fn odd_line(&mut self, text: &[u8], at: usize, stop: usize) -> Result<(), Fault> {
        let end = line_end(text, at);
        if &text[at..end] != b"end" {
            return Err(Fault::BadLine(self.line() + 1));
        }
        self.ended = true;
        if end + 1 < stop { Err(Fault::BadLine(self.line() + 1)) } else { Ok(()) }
    }
}

fn line_end(text: &[u8], at: usize) -> usize {
    text[at..].iter().position(|it| *it == b'\n').map_or(text.len(), |length| at + length)
}

fn fault_of(wrong: Wrong, line: usize) -> Fault {
    match wrong {
        Wrong::Refused(refusal) => Fault::Refused(line, refusal),
        Wrong::Reply(right) => Fault::WrongReply(line, right),
    }
}

// Writing the output

/// A buffer before standard output.
struct Out {
    file: File,
    bytes: Vec<u8>,
    at: usize,
}

impl Out {
    /// Makes room for at least `ROOM` bytes.
    #[inline(always)]
    fn make_room(&mut self) {
        if self.at >= PIECE {
            self.flush();
        }
    }

    #[cold]
    fn flush(&mut self) {
        if self.file.write_all(&self.bytes[..self.at]).is_err() {
            finish("write fault", 3);
        }
        self.at = 0;
    }

    /// Writes the first bytes of a table of a fixed size.
    #[inline(always)]
    fn put_of<const N: usize>(&mut self, bytes: &[u8; N], length: usize) {
        self.bytes[self.at..self.at + N].copy_from_slice(bytes);
        self.at += length;
    }

    fn put(&mut self, text: &[u8]) {
        for piece in text.chunks(PIECE) {
            self.make_room();
            self.bytes[self.at..self.at + piece.len()].copy_from_slice(piece);
            self.at += piece.len();
        }
    }

    fn put_text(&mut self, text: &str) {
        self.put(text.as_bytes());
    }

    fn put_number(&mut self, number: u64) {
        let digits = Digits::of(number);
        self.put_of(&digits.bytes, digits.length);
    }
}

/// A number as it is written.
#[derive(Clone, Copy)]
struct Digits {
    bytes: [u8; 24],
    length: usize,
}

const EIGHT_DIGITS: u64 = 100_000_000;

impl Digits {
    #[inline(always)]
    fn of(number: u64) -> Digits {
        let mut bytes = [0; 24];
        if number >= EIGHT_DIGITS {
            return Digits::of_long(number);
        }
        let digits = eight_digits(number);
        let zeros = ((digits.trailing_zeros() & !7) / 8).min(7);
        bytes[..8].copy_from_slice(&((digits | repeated(b'0')) >> (8 * zeros)).to_le_bytes());
        Digits { bytes, length: 8 - zeros as usize }
    }

    #[inline(never)]
    fn of_long(number: u64) -> Digits {
        let mut digits = Digits::of(number / EIGHT_DIGITS);
        let last = (eight_digits(number % EIGHT_DIGITS) | repeated(b'0')).to_le_bytes();
        digits.bytes[digits.length..digits.length + 8].copy_from_slice(&last);
        digits.length += 8;
        digits
    }
}

/// Returns the eight digits of a number, each in a byte, the first in the lowest.
#[inline(always)]
fn eight_digits(number: u64) -> u64 {
    let fours = number / 10_000 | (number % 10_000) << 32;
    let hundreds = (fours * 10_486 >> 20) & 0x0000_007f_0000_007f;
    let twos = hundreds | (fours - 100 * hundreds) << 16;
    let tens = (twos * 103 >> 10) & 0x000f_000f_000f_000f;
    tens | (twos - 10 * tens) << 8
}

/// A count as it is written: of entries, tickets or advances, so of eight digits at most.
#[derive(Clone, Copy)]
struct Counter {
    bytes: [u8; 8],
    length: usize,
}

impl Counter {
    const ZERO: Counter = Counter { bytes: *b"0       ", length: 1 };

    #[inline(always)]
    fn add_one(&mut self) {
        let last = (self.length - 1) & 7;
        self.bytes[last] += 1;
        if self.bytes[last] > b'9' {
            self.carry();
        }
    }

    /// (the last digit is one more than nine)
    #[cold]
    fn carry(&mut self) {
        let number = self.bytes[..self.length].iter().fold(0, |sum, digit| 10 * sum + u64::from(digit - b'0'));
        let digits = Digits::of(number);
        self.bytes.copy_from_slice(&digits.bytes[..8]);
        self.length = digits.length;
    }
}

// check

/// Returns a call in sixteen bits: its act, worker and object. That of a go represents an entry that ends no call.
#[inline(always)]
fn code_of(worker: usize, call: Call) -> u16 {
    (call.act as u16) << 13 | (worker as u16) << 9 | call.object
}

const NO_CALL: u16 = (GO as u16) << 13;

fn act_of(code: u16) -> u8 {
    (code >> 13) as u8
}

/// A call whose point is before its last entry.
struct Early {
    point: u32,
    code: u16,
    value: u64,
}

/// What the order needs: for each entry the call that it ends, if its point is there; the values of those calls that have one;
/// and the calls with earlier points. While calls on an eventcount are pending, the moments after its advances are kept.
struct Order {
    codes: Vec<u16>,
    values: Vec<u64>,
    early: Vec<Early>,
    open: [u32; EVENTS],
    first: [u64; EVENTS],
    moments: Vec<Vec<u32>>,
}

impl Watcher for Order {
    fn new(_: &Heading) -> Order {
        let moments = vec![Vec::new(); EVENTS];
        Order { codes: Vec::new(), values: Vec::new(), early: Vec::new(), open: [0; EVENTS], first: [0; EVENTS], moments }
    }

    #[inline(always)]
    fn whole(&mut self, at: u32, worker: usize, call: Call, _: u64) {
        self.codes.push(code_of(worker, call));
        if call.act == PUT || call.act == AWAIT {
            self.values.push(call.value);
        } else if call.act == ADVANCE && self.open[call.object as usize & 31] > 0 {
            self.moments[call.object as usize & 31].push(at + 1);
        }
    }

    #[inline(always)]
    fn begun(&mut self, _: usize, call: Call, going: &Going, _: u32) {
        self.codes.push(NO_CALL);
        let event = call.object as usize & 31;
        if self.open[event] == 0 {
            self.moments[event].clear();
            self.first[event] = going.before;
        }
        self.open[event] += 1;
    }

    #[inline(always)]
    fn went_on(&mut self) {
        self.codes.push(NO_CALL);
    }

    #[inline(always)]
    fn ended(&mut self, at: u32, worker: usize, going: &Going) {
        let event = going.call.object as usize & 31;
        self.open[event] -= 1;
        let (code, value) = (code_of(worker, going.call), going.call.value);
        let point = if going.sum == going.before {
            going.round
        } else {
            self.moments[event][(going.sum - self.first[event] - 1) as usize]
        };
        if point < at {
            self.codes.push(NO_CALL);
            self.early.push(Early { point, code, value });
            return;
        }
        self.codes.push(code);
        if going.call.act == AWAIT {
            self.values.push(value);
        }
    }

    fn write(mut self, heading: &Heading, world: &World, out: &mut Out) -> Result<(), String> {
        out.put_text("evc-order 1\n");
        // (a stable sort: calls with one point stay in the order of their last entries)
        self.early.sort_by_key(|it| it.point);
        self.early.push(Early { point: u32::MAX, code: NO_CALL, value: 0 });
        let mut writer = OrderWriter::new(heading);
        writer.write(&self, out);
        write_totals(heading, world, out);
        Ok(())
    }
}

/// The words of a call up to its value or reply. If it returns done and has no value, its line ends here.
#[derive(Clone, Copy)]
struct Words64 {
    bytes: [u8; 64],
    length: usize,
}

/// The counts as they are written while the order is streamed, and the words of each call so far.
struct OrderWriter<'a> {
    heading: &'a Heading,
    places: Vec<u16>,
    fronts: Vec<Words64>,
    at: Counter,
    totals: [Counter; EVENTS],
    issued: [Counter; SEQUENCERS],
    cells: Vec<Digits>,
}

impl<'a> OrderWriter<'a> {
    fn new(heading: &'a Heading) -> OrderWriter<'a> {
        OrderWriter {
            heading,
            places: vec![0; 1 << 16],
            fronts: vec![Words64 { bytes: [0; 64], length: 0 }],
            at: Counter::ZERO,
            totals: [Counter::ZERO; EVENTS],
            issued: [Counter::ZERO; SEQUENCERS],
            cells: vec![Digits::of(0); CELLS],
        }
    }

    fn write(&mut self, order: &Order, out: &mut Out) {
        let mut early = order.early.iter().peekable();
        let mut values = order.values.iter().copied();
        for (at, code) in order.codes.iter().enumerate() {
            let act = act_of(*code);
            if act == READ || act == AWAIT {
                self.put_call(*code, &mut values, out);
            }
            while early.peek().is_some_and(|it| it.point as usize == at) {
                if let Some(call) = early.next() {
                    self.put_call(call.code, &mut std::iter::once(call.value), out);
                }
            }
            if act != READ && act != AWAIT && act != GO {
                self.put_call(*code, &mut values, out);
            }
            self.at.add_one();
        }
    }

    #[inline(always)]
    fn put_call(&mut self, code: u16, values: &mut impl Iterator<Item = u64>, out: &mut Out) {
        out.make_room();
        out.put_of(&self.at.bytes, self.at.length);
        self.put_front(code, out);
        let event = code as usize & 31;
        match act_of(code) {
            ADVANCE => self.totals[event].add_one(),
            READ => put_line(&self.totals[event], out),
            TICKET => {
                put_line(&self.issued[event], out);
                self.issued[event].add_one();
            }
            AWAIT => {
                out.put_number(values.next().unwrap_or(0));
                out.put_of(b" = ", 3);
                put_line(&self.totals[event], out);
            }
            PUT => {
                let digits = Digits::of(values.next().unwrap_or(0));
                out.put_of(&digits.bytes, digits.length);
                out.put_of(b" = done\n", 8);
                self.cells[code as usize & 255] = digits;
            }
            GET => {
                let digits = &self.cells[code as usize & 255];
                out.put_of(&digits.bytes, digits.length);
                out.put_of(b"\n", 1);
            }
            _ => {}
        }
    }

    #[inline(always)]
    fn put_front(&mut self, code: u16, out: &mut Out) {
        let mut place = self.places[code as usize];
        if place == 0 {
            place = self.add_front(code);
        }
        let front = &self.fronts[place as usize];
        if front.length <= 32 {
            out.put_of::<32>(front.bytes[..32].try_into().unwrap(), front.length);
        } else {
            out.put_of(&front.bytes, front.length);
        }
    }

    #[cold]
    fn add_front(&mut self, code: u16) -> u16 {
        let text = self.front(code);
        let mut bytes = [0; 64];
        bytes[..text.len()].copy_from_slice(text.as_bytes());
        self.fronts.push(Words64 { bytes, length: text.len() });
        self.places[code as usize] = (self.fronts.len() - 1) as u16;
        self.places[code as usize]
    }

    fn front(&self, code: u16) -> String {
        let act = act_of(code);
        let worker = &self.heading.workers[code as usize >> 9 & 15];
        let object = match act {
            TICKET => &self.heading.sequencers[code as usize & 31].0,
            PUT | GET => &self.heading.cells[code as usize & 255].0,
            _ => &self.heading.events[code as usize & 31].0,
        };
        let rest = match act {
            ADVANCE => " = done\n".to_string(),
            HAND => format!(" {} = done\n", self.heading.workers[code as usize >> 5 & 15]),
            PUT | AWAIT => " ".to_string(),
            _ => " = ".to_string(),
        };
        format!(" {worker} {}{object}{rest}", VERBS[act as usize])
    }
}

#[inline(always)]
fn put_line(counter: &Counter, out: &mut Out) {
    out.put_of(&counter.bytes, counter.length);
    out.put_of(b"\n", 1);
}

fn write_totals(heading: &Heading, world: &World, out: &mut Out) {
    out.put_text("totals\n");
    for object in &heading.order {
        let line = match *object {
            Object::Event(event) => format!("eventcount {} {}\n", heading.events[event].0, world.totals[event]),
            Object::Sequencer(it) => format!("sequencer {} {}\n", heading.sequencers[it].0, world.issued[it]),
            Object::Cell(cell) => format!("cell {} {}\n", heading.cells[cell].0, world.cells[cell]),
        };
        out.put_text(&line);
    }
    out.put_text("end\n");
}

// audit

/// What an audit keeps of a group: the position of each worker in its list of calls and the number that it was returned, the
/// first entry that breaks the lists, and the numbers of the group's lines.
struct Audit {
    group: Group,
    places: [u16; WORKERS],
    told: [u64; WORKERS],
    fault: Option<(usize, u32)>,
    /// The producer of the item in each cell of a buffer.
    makers: Vec<u8>,
    /// Deliveries as producer, consumer and item; or accepting tries as reader, version and values.
    workers: Vec<u8>,
    numbers: Vec<u64>,
    /// What each reader's try of a database has read so far.
    got: Vec<Vec<u64>>,
    downs: u64,
    ups: u64,
}

impl Audit {
    fn new(group: &Group) -> Audit {
        Audit {
            places: [0; WORKERS],
            told: [0; WORKERS],
            fault: None,
            makers: vec![0; group.cells],
            workers: Vec::new(),
            numbers: Vec::new(),
            got: vec![Vec::new(); WORKERS],
            downs: 0,
            ups: 0,
            group: group.clone(),
        }
    }

    fn is_first(&self, worker: usize) -> bool {
        self.group.first >> worker & 1 == 1
    }

    /// Begins a call of the worker on the group.
    #[inline(always)]
    fn begin(&mut self, at: u32, worker: usize, call: Call) {
        if self.fault.is_some() {
            return;
        }
        let next = match (self.group.kind, self.is_first(worker)) {
            (Kind::Buffer, true) => self.produce(worker, call),
            (Kind::Buffer, false) => self.consume(worker, call),
            (Kind::Database, true) => self.write_all(worker, call),
            (Kind::Database, false) => self.try_snapshot(worker, call),
            (Kind::Semaphore | Kind::Both, _) => self.use_semaphore(worker, call),
        };
        match next {
            Some(place) => self.places[worker] = place,
            None => self.fault = Some((worker, at)),
        }
    }

    /// Returns whether the call is this act on this eventcount of the group, with this value.
    fn is_event(&self, call: Call, act: u8, which: usize, value: u64) -> bool {
        call.act == act && call.object as usize == self.group.event + which && call.value == value
    }

    fn is_ticket(&self, call: Call, which: usize) -> bool {
        call.act == TICKET && call.object as usize == self.group.sequencer + which
    }

    fn is_cell(&self, call: Call, act: u8, which: usize) -> bool {
        call.act == act && call.object as usize == self.group.cell + which
    }

    /// Returns the cell of a buffer that has the item of a number.
    fn cell_of(&self, number: u64) -> usize {
        (number as u32 % self.group.cells as u32) as usize
    }

    fn produce(&mut self, worker: usize, call: Call) -> Option<u16> {
        let told = self.told[worker];
        let place = self.places[worker];
        let right = match place {
            0 => self.is_ticket(call, 0),
            1 => self.is_event(call, AWAIT, 0, told),
            2 => self.is_event(call, AWAIT, 1, (told + 1).saturating_sub(self.group.cells as u64)),
            3 => self.is_cell(call, PUT, self.cell_of(told)),
            _ => self.is_event(call, ADVANCE, 0, 0),
        };
        right.then_some(if place == 4 { 0 } else { place + 1 })
    }

    fn consume(&mut self, worker: usize, call: Call) -> Option<u16> {
        let told = self.told[worker];
        let place = self.places[worker];
        let right = match place {
            0 => self.is_ticket(call, 1),
            1 => self.is_event(call, AWAIT, 1, told),
            2 => self.is_event(call, AWAIT, 0, told + 1),
            3 => self.is_cell(call, GET, self.cell_of(told)),
            _ => self.is_event(call, ADVANCE, 1, 0),
        };
        right.then_some(if place == 4 { 0 } else { place + 1 })
    }

    fn write_all(&mut self, worker: usize, call: Call) -> Option<u16> {
        let place = self.places[worker];
        let last = self.group.cells as u16 + 3;
        let right = match place {
            0 => self.is_event(call, ADVANCE, 0, 0),
            1 => self.is_ticket(call, 0),
            2 => self.is_event(call, AWAIT, 1, self.told[worker]),
            _ if place < last => self.is_cell(call, PUT, place as usize - 3),
            _ => self.is_event(call, ADVANCE, 1, 0),
        };
        right.then_some(if place == last { 0 } else { place + 1 })
    }

    fn try_snapshot(&mut self, worker: usize, call: Call) -> Option<u16> {
        let place = self.places[worker];
        let last = self.group.cells as u16 + 2;
        let right = match place {
            1 => self.is_event(call, AWAIT, 1, self.told[worker]),
            _ if place == 0 || place == last => self.is_event(call, READ, 0, 0),
            _ => self.is_cell(call, GET, place as usize - 2),
        };
        right.then_some(if place == last { 0 } else { place + 1 })
    }

    fn use_semaphore(&mut self, worker: usize, call: Call) -> Option<u16> {
        if self.places[worker] == 1 {
            let value = (self.told[worker] + 1).saturating_sub(self.group.initial);
            return self.is_event(call, AWAIT, 0, value).then_some(0);
        }
        match call.act {
            TICKET => Some(1),
            ADVANCE => Some(0),
            _ => None,
        }
    }

    /// Ends a call of the worker on the group.
    #[inline(always)]
    fn end(&mut self, worker: usize, call: Call, reply: u64) {
        if self.fault.is_some() {
            return;
        }
        match self.group.kind {
            Kind::Buffer => self.end_in_buffer(worker, call, reply),
            Kind::Database => self.end_in_database(worker, call, reply),
            Kind::Semaphore | Kind::Both => match call.act {
                TICKET => self.told[worker] = reply,
                ADVANCE => self.ups += 1,
                _ => self.downs += 1,
            },
        }
    }

    fn end_in_buffer(&mut self, worker: usize, call: Call, reply: u64) {
        match call.act {
            TICKET => self.told[worker] = reply,
            PUT => self.makers[call.object as usize - self.group.cell] = worker as u8,
            GET => {
                // (consumers get one after another, by number: a delivery's number is its position)
                let maker = self.makers[call.object as usize - self.group.cell];
                self.workers.push(maker << 4 | worker as u8);
                self.numbers.push(reply);
            }
            _ => {}
        }
    }

    fn end_in_database(&mut self, worker: usize, call: Call, reply: u64) {
        match (call.act, self.places[worker]) {
            (TICKET, _) => self.told[worker] = reply,
            (READ, 1) => {
                self.told[worker] = reply;
                self.got[worker].clear();
            }
            (READ, _) if self.told[worker] == reply => {
                self.workers.push(worker as u8);
                self.numbers.push(reply);
                self.numbers.extend_from_slice(&self.got[worker]);
            }
            (GET, _) => self.got[worker].push(reply),
            _ => {}
        }
    }

    fn write(&self, heading: &Heading, out: &mut Out) {
        match self.group.kind {
            Kind::Buffer => self.write_deliveries(heading, out),
            Kind::Database => self.write_versions(heading, out),
            Kind::Semaphore | Kind::Both => self.write_balance(out),
        }
    }

    fn write_deliveries(&self, heading: &Heading, out: &mut Out) {
        let front = format!("delivery {} ", self.group.name);
        let mut number = Counter::ZERO;
        for (workers, item) in self.workers.iter().zip(&self.numbers) {
            out.put_text(&front);
            out.put_of(&number.bytes, number.length);
            number.add_one();
            for worker in [workers >> 4, workers & 15] {
                out.put_text(" ");
                out.put_text(&heading.workers[worker as usize]);
            }
            put_behind_space(*item, out);
            out.put_text("\n");
        }
    }

    fn write_versions(&self, heading: &Heading, out: &mut Out) {
        let front = format!("version {}", self.group.name);
        for (worker, numbers) in self.workers.iter().zip(self.numbers.chunks(self.group.cells + 1)) {
            out.put_text(&front);
            put_behind_space(numbers[0], out);
            out.put_text(" ");
            out.put_text(&heading.workers[*worker as usize]);
            for value in &numbers[1..] {
                put_behind_space(*value, out);
            }
            out.put_text("\n");
        }
    }

    fn write_balance(&self, out: &mut Out) {
        let (initial, downs, ups) = (self.group.initial, self.downs, self.ups);
        out.put_text(&format!("balance {} {initial} {downs} {ups} {}\n", self.group.name, initial + ups - downs));
    }
}

fn put_behind_space(number: u64, out: &mut Out) {
    out.put_of(b" ", 1);
    out.put_number(number);
    out.make_room();
}

/// The critical sections of the P on two semaphores: how far each worker is in its section, the ticket of `both` and the first
/// of the two tickets, with its semaphore.
struct Guards {
    group: usize,
    places: [u8; WORKERS],
    told: [u64; WORKERS],
    first: [(usize, u64); WORKERS],
    fault: Option<(usize, u32)>,
    pairs: Vec<Pair>,
}

struct Pair {
    worker: u8,
    groups: [u8; 2],
    tickets: [u64; 2],
}

struct Audits {
    audits: Vec<Audit>,
    of_event: [u8; EVENTS],
    of_sequencer: [u8; SEQUENCERS],
    of_cell: [u8; CELLS],
    guards: Option<Guards>,
}

impl Audits {
    #[inline(always)]
    fn group_of(&self, call: Call) -> u8 {
        match call.act {
            TICKET => self.of_sequencer[call.object as usize & 31],
            PUT | GET => self.of_cell[call.object as usize & 255],
            _ => self.of_event[call.object as usize & 31],
        }
    }

    #[inline(always)]
    fn begin(&mut self, at: u32, worker: usize, call: Call) -> u8 {
        let group = self.group_of(call);
        if self.guards.is_some() {
            self.guard(at, worker, call, group);
        }
        if group != NONE {
            self.audits[group as usize].begin(at, worker, call);
        }
        group
    }

    #[inline(always)]
    fn end(&mut self, worker: usize, call: Call, group: u8, reply: u64) {
        if group != NONE {
            self.audits[group as usize].end(worker, call, reply);
        }
    }

    /// Begins a call, and notes a fault if the worker's critical section doesn't allow it.
    fn guard(&mut self, at: u32, worker: usize, call: Call, group: u8) {
        let Some(guards) = &mut self.guards else { return };
        if guards.fault.is_some() {
            return;
        }
        let on_both = group as usize == guards.group;
        let is_semaphore = group != NONE && self.audits[group as usize].group.kind == Kind::Semaphore;
        let right = match guards.places[worker] {
            0 if !on_both => return,
            0 => call.act == TICKET,
            1 => on_both && call.act == AWAIT && call.value == guards.told[worker],
            2 => is_semaphore && call.act == TICKET,
            3 => is_semaphore && call.act == TICKET && guards.first[worker].0 != group as usize,
            _ => on_both && call.act == ADVANCE,
        };
        if right {
            guards.places[worker] = (guards.places[worker] + 1) % 5;
        } else {
            guards.fault = Some((worker, at));
        }
    }

    /// Notes a ticket that was drawn.
    fn guard_ticket(&mut self, worker: usize, group: u8, reply: u64) {
        let Some(guards) = &mut self.guards else { return };
        match guards.places[worker] {
            1 => guards.told[worker] = reply,
            3 => guards.first[worker] = (group as usize, reply),
            4 => {
                // (critical sections exclude each other, so pairs come in the order of their first tickets)
                let (first, ticket) = guards.first[worker];
                guards.pairs.push(Pair { worker: worker as u8, groups: [first as u8, group], tickets: [ticket, reply] });
            }
            _ => {}
        }
    }

    /// Returns the note on the first group that is not followed.
    fn fault(&self, heading: &Heading) -> Option<String> {
        for (place, audit) in self.audits.iter().enumerate() {
            let fault = match &self.guards {
                Some(guards) if guards.group == place => guards.fault,
                _ => audit.fault,
            };
            if let Some((worker, entry)) = fault {
                return Some(format!("{} not followed: worker {} entry {entry}", audit.group.name, heading.workers[worker]));
            }
        }
        None
    }

    fn write_pairs(&self, pairs: &[Pair], heading: &Heading, out: &mut Out) {
        for pair in pairs {
            out.put_text("pair ");
            out.put_text(&heading.workers[pair.worker as usize]);
            for (group, ticket) in pair.groups.iter().zip(pair.tickets) {
                out.put_text(" ");
                out.put_text(&self.audits[*group as usize].group.name);
                put_behind_space(ticket, out);
            }
            out.put_text("\n");
        }
    }
}

impl Watcher for Audits {
    fn new(heading: &Heading) -> Audits {
        let mut audits = Audits {
            audits: heading.groups.iter().map(Audit::new).collect(),
            of_event: [NONE; EVENTS],
            of_sequencer: [NONE; SEQUENCERS],
            of_cell: [NONE; CELLS],
            guards: None,
        };
        for (place, group) in heading.groups.iter().enumerate() {
            let (events, sequencers) = match group.kind {
                Kind::Buffer => (2, 2),
                Kind::Database => (2, 1),
                Kind::Semaphore | Kind::Both => (1, 1),
            };
            audits.of_event[group.event..group.event + events].fill(place as u8);
            audits.of_sequencer[group.sequencer..group.sequencer + sequencers].fill(place as u8);
            audits.of_cell[group.cell..group.cell + group.cells].fill(place as u8);
            if group.kind == Kind::Both {
                let (places, told, first) = ([0; WORKERS], [0; WORKERS], [(0, 0); WORKERS]);
                audits.guards = Some(Guards { group: place, places, told, first, fault: None, pairs: Vec::new() });
            }
        }
        audits
    }

    #[inline(always)]
    fn whole(&mut self, at: u32, worker: usize, call: Call, reply: u64) {
        let group = self.begin(at, worker, call);
        self.end(worker, call, group, reply);
        if call.act == TICKET && self.guards.is_some() {
            self.guard_ticket(worker, group, reply);
        }
    }

    #[inline(always)]
    fn begun(&mut self, worker: usize, call: Call, _: &Going, at: u32) {
        self.begin(at, worker, call);
    }

    #[inline(always)]
    fn went_on(&mut self) {}

    #[inline(always)]
    fn ended(&mut self, _: u32, worker: usize, going: &Going) {
        let group = self.group_of(going.call);
        self.end(worker, going.call, group, going.sum);
    }

    fn write(self, heading: &Heading, _: &World, out: &mut Out) -> Result<(), String> {
        if let Some(note) = self.fault(heading) {
            return Err(note);
        }
        out.put_text("evc-audit 1\n");
        for (place, audit) in self.audits.iter().enumerate() {
            audit.write(heading, out);
            match &self.guards {
                Some(guards) if guards.group == place => self.write_pairs(&guards.pairs, heading, out),
                _ => {}
            }
        }
        out.put_text("end\n");
        Ok(())
    }
}

// upgrade

/// The lines after the header. A trace has one encoding, so these are written as they are.
struct Lines(Vec<u8>);

impl Watcher for Lines {
    fn new(_: &Heading) -> Lines {
        Lines(Vec::new())
    }

    fn text(&mut self, lines: &[u8]) {
        self.0.extend_from_slice(lines);
    }

    fn whole(&mut self, _: u32, _: usize, _: Call, _: u64) {}
    fn begun(&mut self, _: usize, _: Call, _: &Going, _: u32) {}
    fn went_on(&mut self) {}
    fn ended(&mut self, _: u32, _: usize, _: &Going) {}

    fn write(self, heading: &Heading, _: &World, out: &mut Out) -> Result<(), String> {
        write_heading(heading, out);
        out.put(&self.0);
        Ok(())
    }
}

fn write_heading(heading: &Heading, out: &mut Out) {
    out.put_text(&format!("evc-trace 2\nlimit {}\nworkers {}\n", heading.limit, heading.workers.join(" ")));
    for line in &heading.declarations {
        out.put_text(line);
        out.put_text("\n");
    }
    out.put_text("run\n");
}

// The program

/// Writes a note, and ends with this status.
fn finish(note: &str, status: i32) -> ! {
    if !note.is_empty() {
        // (a fault in writing the note is not reported)
        let _ = writeln!(io::stderr(), "{note}");
    }
    exit(status)
}

fn note_of(fault: Fault) -> (String, i32) {
    match fault {
        Fault::BadLine(line) => (format!("line {line}: bad line"), 1),
        Fault::Refused(line, refusal) => (format!("line {line}: refused {refusal}"), 1),
        Fault::WrongReply(line, DONE) => (format!("line {line}: wrong reply, right is done"), 1),
        Fault::WrongReply(line, PENDING) => (format!("line {line}: wrong reply, right is pending"), 1),
        Fault::WrongReply(line, number) => (format!("line {line}: wrong reply, right is {number}"), 1),
        Fault::Unfinished => ("unfinished".to_string(), 1),
        Fault::TooLarge => ("too large".to_string(), 1),
        Fault::Read => ("read fault".to_string(), 3),
    }
}

fn file_of(stream: impl AsFd, fault: &str) -> File {
    match stream.as_fd().try_clone_to_owned() {
        Ok(stream) => File::from(stream),
        Err(_) => finish(fault, 3),
    }
}

fn pass<W: Watcher>() -> ! {
    let file = file_of(io::stdin(), "read fault");
    let bytes = vec![0; PIECE + LINE + ROOM];
    let mut input = Input { file, bytes, begin: 0, end: 0, taken: 0, fault: None };
    let (heading, world, watcher) = match Pass::<W>::read(&mut input) {
        Ok(read) => read,
        Err(fault) => {
            let (note, status) = note_of(fault);
            finish(&note, status)
        }
    };
    let mut out = Out { file: file_of(io::stdout(), "write fault"), bytes: vec![0; 2 * PIECE + ROOM], at: 0 };
    if let Err(note) = watcher.write(&heading, &world, &mut out) {
        finish(&note, 1);
    }
    out.flush();
    finish("", 0)
}

fn main() {
    let words: Vec<String> = std::env::args().skip(1).collect();
    match words.iter().map(String::as_str).collect::<Vec<_>>()[..] {
        ["check"] => pass::<Order>(),
        ["audit"] => pass::<Audits>(),
        ["upgrade"] => pass::<Lines>(),
        _ => finish("usage: texts check|audit|upgrade", 2),
    }
}
