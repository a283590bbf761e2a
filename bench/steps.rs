//! The loop of `crates/bench_steps` in plain Rust, over the same tables and with the same checks, as a baseline:
//! `steps world N` and `steps run N` print what `bench_steps` prints. Compiled by `rustc -O`.

mod world;

use std::process::ExitCode;
use world::{Act, LIMIT, Members, Refusal, Reply, Rights, Run, Setup, Steps, World};

const ROUND: u64 = 6;

fn number_of(reply: Reply) -> u64 {
    match reply {
        Reply::Number(n) => n,
        Reply::Done | Reply::Pending => 0,
    }
}

/// Makes one round: an advance, a read of four components, and a ticket. Returns the sum of their numbers.
fn round(steps: &mut impl Steps, worker: u8) -> Result<u64, Refusal> {
    steps.step(worker, Act::Advance(0))?;
    steps.step(worker, Act::Read(0))?;
    steps.step(worker, Act::Go)?;
    steps.step(worker, Act::Go)?;
    let total = steps.step(worker, Act::Go)?;
    let ticket = steps.step(worker, Act::Ticket(0))?;
    Ok(number_of(total).wrapping_add(number_of(ticket)))
}

/// Makes at least so many steps, in whole rounds by each of four workers in turn, and returns a line of sums.
fn line(mut steps: impl Steps, count: u64) -> Result<String, Refusal> {
    let mut told = 0u64;
    for i in 0..count.div_ceil(ROUND) {
        told = told.wrapping_add(round(&mut steps, (i % 4) as u8)?);
    }
    let world = steps.world();
    Ok(format!("{} {} {told}", world.total(0), world.issued(0)))
}

/// Returns four workers that signal and observe one eventcount and draw from one sequencer, at the greatest limit.
fn setup() -> Setup {
    let all = Members::new(&[0, 1, 2, 3]);
    Setup {
        limit: LIMIT,
        workers: 4,
        events: vec![Rights {
            signal: all.clone(),
            observe: all.clone(),
            fixed: false,
        }],
        takers: vec![all],
        cells: Vec::new(),
    }
}

fn main() -> ExitCode {
    let words: Vec<String> = std::env::args().collect();
    let (Some(what), Some(Ok(count))) = (words.get(1), words.get(2).map(|word| word.parse()))
    else {
        return ExitCode::from(2);
    };
    let done = match what.as_str() {
        "world" => line(World::open(setup()), count),
        "run" => line(Run::open(setup()), count),
        _ => return ExitCode::from(2),
    };
    match done {
        Ok(text) => {
            println!("{text}");
            ExitCode::SUCCESS
        }
        Err(refusal) => {
            eprintln!("refused: {refusal:?}");
            ExitCode::FAILURE
        }
    }
}
