//! Two presses count the sheets that they print, and a watcher reads how many there are: an eventcount of two
//! components, and a sequencer that gives each press its job.
//!
//!     presses FILE [BUG]
//!
//! writes what they did as a trace. BUG plants one: `twice`, `shared` or `ticket` (docs/RECORDING.md). The three threads
//! take turns, so that each run is the same; a program of yours needs no turns.
mod evc_record;

use evc_record::{Record, Reply};
use std::sync::atomic::{AtomicU64, AtomicUsize, Ordering::SeqCst};
use std::thread;

struct Shop {
    record: Record,
    bug: String,
    sheets: [AtomicU64; 2], // the components of the eventcount, one for each press
    jobs: AtomicU64,        // the sequencer
    turn: AtomicUsize,
}

impl Shop {
    fn has(&self, bug: &str) -> bool {
        self.bug == bug
    }

    fn at_turn(&self, mine: usize, do_it: impl FnOnce()) {
        while self.turn.load(SeqCst) != mine {
            thread::yield_now();
        }
        do_it();
        self.turn.fetch_add(1, SeqCst);
    }

    fn draw_job(&self, press: &str) {
        self.record.step(press, "ticket Job", || {
            let last = if self.has("ticket") { self.jobs.load(SeqCst) } else { self.jobs.fetch_add(1, SeqCst) };
            Reply::Number(last)
        });
    }

    fn print_sheet(&self, press: &str, component: usize, seen: u64) {
        self.record.step(press, "advance Sheets", || {
            if self.has("shared") {
                self.sheets[0].store(seen + 1, SeqCst); // what the other press has added since is lost
            } else {
                self.sheets[component].fetch_add(1, SeqCst);
            }
            Reply::Done
        });
    }

    /// One step of the watcher's read: a component, and the reply.
    fn watch(&self, act: &str, component: usize, sum: &mut u64, is_last: bool) {
        self.record.step("watcher", act, || {
            *sum += self.sheets[component].load(SeqCst);
            if is_last { Reply::Number(*sum) } else { Reply::Pending }
        });
    }

    fn run_press(&self, press: &str, component: usize) {
        let seen = self.sheets[0].load(SeqCst);
        self.at_turn(component, || self.draw_job(press));
        self.at_turn(if component == 0 { 2 } else { 4 }, || self.print_sheet(press, component, seen));
    }

    fn run_watcher(&self) {
        let mut sum = 0;
        self.at_turn(3, || self.watch("read Sheets", 0, &mut sum, false));
        self.at_turn(5, || {
            if self.has("twice") {
                // all components once more, to be sure
                self.watch("go", 1, &mut sum, false);
                sum = 0;
                self.watch("go", 0, &mut sum, false);
            }
            self.watch("go", 1, &mut sum, true);
        });
    }
}

fn main() -> Result<(), Box<dyn std::error::Error>> {
    let words: Vec<String> = std::env::args().collect();
    let path = words.get(1).ok_or("usage: presses FILE [twice|shared|ticket]")?;
    let shop = Shop {
        record: Record::new(
            100,
            &["press1", "press2", "watcher"],
            &["eventcount Sheets signal press1 press2 observe watcher", "sequencer Job take press1 press2"],
        ),
        bug: words.get(2).cloned().unwrap_or_default(),
        sheets: [AtomicU64::new(0), AtomicU64::new(0)],
        jobs: AtomicU64::new(0),
        turn: AtomicUsize::new(0),
    };
    thread::scope(|threads| {
        threads.spawn(|| shop.run_press("press1", 0));
        threads.spawn(|| shop.run_press("press2", 1));
        threads.spawn(|| shop.run_watcher());
    });
    shop.record.write(path)?;
    Ok(())
}
