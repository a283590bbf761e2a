//! Tests of `Count`: the programs `evc-calls` and `evc` judge what was recorded, and the library rounds.
use evc::evc_calls::{Call, Clock, Record, Reply};
use evc::{evc_record, evc_stress};
use judged::Count;
use std::process::Command;
use std::{path::Path, thread};

/// Fails with the note if the program doesn't accept the file.
fn judge(program: &str, path: &Path) {
    let judged = Command::new(program).arg("check").arg(path).output().expect(program);
    assert!(judged.status.success(), "{}", String::from_utf8_lossy(&judged.stderr));
}

#[test]
fn calls() {
    let path = Path::new(env!("CARGO_TARGET_TMPDIR")).join("my.calls");
    let mut record = Record::new(Clock::Counter).unwrap();
    let workers = ["a", "b"].map(|name| record.worker(name, 2000).unwrap());
    let e = record.eventcount("E", 0).unwrap();
    let count = &Count::default();
    thread::scope(|scope| {
        for mut worker in workers {
            scope.spawn(move || {
                for _ in 0..1000 {
                    worker.call(Call::Advance(e), || (count.advance(), Reply::Done).1);
                    worker.call(Call::Read(e), || Reply::Number(count.read()));
                }
            });
        }
    });
    record.write(&path).unwrap();
    judge("evc-calls", &path);
}

#[test]
fn steps() {
    let path = Path::new(env!("CARGO_TARGET_TMPDIR")).join("my.trace");
    let record = evc_record::Record::new(1000, &["a", "b"], &["eventcount E signal a observe b"]);
    let count = &Count::default();
    thread::scope(|scope| {
        scope.spawn(|| {
            for _ in 0..1000 {
                record.step("a", "advance E", || (count.advance(), evc_record::Reply::Done).1);
            }
        });
        scope.spawn(|| {
            for _ in 0..1000 {
                record.step("b", "read E", || evc_record::Reply::Number(count.read()));
            }
        });
    });
    record.step("b", "read E", || evc_record::Reply::Number(count.read()));
    record.write(&path).unwrap();
    judge("evc", &path);
}

struct Mine(Count);

impl evc_stress::Eventcount for Mine {
    fn fresh() -> Self {
        Mine(Count::default())
    }
    fn advance(&self) {
        self.0.advance();
    }
    fn read(&self) -> u64 {
        self.0.read()
    }
    fn await_count(&self, threshold: u64) -> Reply {
        while self.read() < threshold {
            thread::yield_now();
        }
        Reply::Number(self.read())
    }
}

#[test]
fn rounds() {
    evc_stress::Stress { rounds: 100, ..Default::default() }.run::<Mine>().unwrap();
}
