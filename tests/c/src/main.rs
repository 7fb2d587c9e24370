//! Random calls through the C interface beside the second implementation.
//! After each call the answer and all memory must agree.

mod acts;
mod c;
mod expected;
mod hostile;
mod lent;
mod lists;
mod runs;
mod served;
mod table;
mod world;

use std::process::ExitCode;

use second::random::Random;
use second::tally::Tally;

const USAGE: &str = "boundary [--seed N] [--runs N]";

fn main() -> ExitCode {
    let Some((seed, runs)) = options() else {
        eprintln!("usage: {USAGE}");
        return ExitCode::from(2);
    };
    println!("seed {seed}, {runs} runs");
    let mut tally = Tally::default();
    let (mut calls, mut differed) = (0, 0);
    for run in 0..runs {
        let kind = runs::KINDS[run % runs::KINDS.len()];
        let (world, done) = runs::run(Random::stream(seed, run as u64), kind);
        tally.add(&world.tally);
        calls += world.calls;
        if let Err(why) = done {
            differed += 1;
            let (name, numbers) = world.last;
            println!("run {run} ({kind:?}) differs, call {}, {name} {numbers:?}: {why}", world.calls);
        }
    }
    let missing = table::report(&tally);
    println!("{calls} calls: {} runs agreed, {differed} differed, {missing} never met", runs - differed);
    if differed == 0 && missing == 0 {
        ExitCode::SUCCESS
    } else {
        ExitCode::FAILURE
    }
}

/// Seed and runs.
fn options() -> Option<(u64, usize)> {
    let (mut seed, mut runs) = (1, 400);
    let mut words = std::env::args().skip(1);
    while let Some(word) = words.next() {
        let value = words.next()?;
        match word.as_str() {
            "--seed" => seed = value.parse().ok()?,
            "--runs" => runs = value.parse().ok()?,
            _ => return None,
        }
    }
    Some((seed, runs))
}
