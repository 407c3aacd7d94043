//! Compares the proved LS checksum with the second implementation:
//! `checksum [RECORDS [SEED]]`. The first records have every length from 0 to
//! a few bytes too many, the others are as long as LSAs are.

use std::env;
use std::process::ExitCode;
use std::thread;

use checksum::{Counts, Difference, MOST, PROVED, compare};
use inputs::Rng;

/// Every length of an LSA, and some beyond.
const LENGTHS: usize = MOST + 5;

fn main() -> ExitCode {
    let mut numbers = env::args().skip(1).map(|word| word.parse::<u64>());
    let (Ok(records), Ok(seed)) = (
        numbers.next().unwrap_or(Ok(1_000_000)),
        numbers.next().unwrap_or(Ok(1)),
    ) else {
        eprintln!("usage: checksum [RECORDS [SEED]]");
        return ExitCode::from(2);
    };
    match all(records as usize, seed) {
        Ok(counts) => {
            println!("checksum: {counts}");
            println!("checksum: {records} records, no difference");
            ExitCode::SUCCESS
        }
        Err(difference) => {
            println!("{difference}");
            ExitCode::FAILURE
        }
    }
}

/// Every second record on a thread of its own.
fn all(records: usize, seed: u64) -> Result<Counts, Box<Difference>> {
    let half = |turn: usize| {
        let mut rng = Rng::new(!seed);
        let short = std::iter::repeat_with(move || 20 + rng.below(300));
        let lengths = (0..LENGTHS).chain(short).take(records);
        compare(PROVED, seed + turn as u64, lengths.skip(turn).step_by(2))
    };
    thread::scope(|scope| {
        let second = scope.spawn(|| half(1));
        let mut counts = half(0)?;
        counts.add(second.join().expect("the other half")?);
        Ok(counts)
    })
}
