//! Compares the proved library with a model that is written apart, on random streams, calls and damaged blocks.
//!
//!     harness [--seed S] [--count N]      from seed S on, N of each part; exit 0 only if all agree
//!
//! A difference is printed with its seed; `--seed S --count 1` shows it again.

mod calls;
mod damage;
mod judge;
mod library;
mod model;
mod random;
mod runner;
mod runs;
mod sequences;
mod stored;
mod streams;

use std::process::ExitCode;
use std::time::Instant;

/// A part: its name, how many seeds it takes by itself, and what it does. It tells what it saw, or the first difference.
type Part = (&'static str, u64, fn(u64, u64) -> Result<String, String>);

const PARTS: [Part; 3] = [("streams", 30_000, runs::check), ("calls", 3_000, calls::check), ("damage", 50, damage::check)];

/// The seed and the count, where one is given.
fn arguments() -> Option<(u64, Option<u64>)> {
    let (mut seed, mut count) = (1, None);
    let words: Vec<String> = std::env::args().skip(1).collect();
    for pair in words.chunks(2) {
        let value = pair.get(1)?.parse().ok()?;
        match pair[0].as_str() {
            "--seed" => seed = value,
            "--count" => count = Some(value),
            _ => return None,
        }
    }
    Some((seed, count))
}

/// Whether the part agrees, and a line that tells.
fn part((name, usual, check): Part, seed: u64, count: Option<u64>) -> (bool, String) {
    let (begun, count) = (Instant::now(), count.unwrap_or(usual));
    let told = check(seed, count);
    let seconds = begun.elapsed().as_secs_f64();
    match told {
        Ok(saw) => (true, format!("{name}: seeds {seed} to {}: {saw}; {seconds:.1} s", (seed + count).saturating_sub(1))),
        Err(why) => (false, format!("{name}: DIFFERENT, {why}")),
    }
}

/// All parts, side by side.
fn all(seed: u64, count: Option<u64>) -> bool {
    std::thread::scope(|scope| {
        let running = PARTS.map(|each| scope.spawn(move || part(each, seed, count)));
        running.into_iter().fold(true, |agrees, each| {
            let (agreed, line) = each.join().expect("a part ends");
            println!("{line}");
            agrees && agreed
        })
    })
}

fn main() -> ExitCode {
    let Some((seed, count)) = arguments() else {
        eprintln!("usage: harness [--seed S] [--count N]");
        return ExitCode::from(2);
    };
    if all(seed, count) {
        println!("harness: all agree");
        return ExitCode::SUCCESS;
    }
    ExitCode::FAILURE
}
