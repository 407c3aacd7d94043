//! Compares the proved update with the second implementation:
//! `book [CALLS [SEED]]`. Prints how many calls showed what, and fails if
//! something that is to be shown was not.

use std::env;
use std::process::ExitCode;
use std::thread;

use book::{Counts, Difference, PROVED, compare};

fn main() -> ExitCode {
    let mut numbers = env::args().skip(1).map(|word| word.parse::<u64>());
    let (Ok(calls), Ok(seed)) = (
        numbers.next().unwrap_or(Ok(1_000_000)),
        numbers.next().unwrap_or(Ok(1)),
    ) else {
        eprintln!("usage: book [CALLS [SEED]]");
        return ExitCode::from(2);
    };
    let counts = match all(calls as usize, seed) {
        Ok(counts) => counts,
        Err(difference) => {
            println!("{difference}");
            return ExitCode::FAILURE;
        }
    };
    print!("{counts}");
    let missing = counts.missing();
    if !missing.is_empty() {
        println!("book: no call showed {missing:?}");
        return ExitCode::FAILURE;
    }
    println!("book: {calls} calls, no difference");
    ExitCode::SUCCESS
}

/// Half of the calls on a thread of its own.
fn all(calls: usize, seed: u64) -> Result<Counts, Box<Difference>> {
    let half = calls / 2;
    thread::scope(|scope| {
        let second = scope.spawn(|| compare(PROVED, !seed, half));
        let mut counts = compare(PROVED, seed, calls - half)?;
        counts.add(second.join().expect("the other half")?);
        Ok(counts)
    })
}
