//! The prefix comparison: of lengths that occur, the same and different.

use std::hint::black_box;
use std::process::ExitCode;

use bench::careful::prefix::{careful, plain};
use bench::corpus::{PREFIXES, Prefixes, prefixes};
use ospf_strip::exports;

use crate::{columns, each};

/// One way to compare all prefixes of a row. Each is a function of its own, so
/// that it calls what it measures by name, as a program would.
type Pass = fn(&mut Vec<Prefixes>) -> u64;

/// The port, careful Rust and plain Rust.
const WAYS: [Pass; 3] = [
    |prefixes| run(prefixes, exports::ospf_prefix_compare),
    |prefixes| run(prefixes, careful),
    |prefixes| run(prefixes, plain),
];

/// One call for each pair.
fn run(prefixes: &[Prefixes], compare: impl Fn(u8, &[u8], u8, &[u8]) -> u64) -> u64 {
    let answers = prefixes.iter().map(|(l, a, m, b)| compare(*l, a, *m, b));
    answers.sum()
}

/// A row for each kind of pair: the time of a comparison, and instructions.
pub fn print(rounds: usize) {
    println!("the prefix comparison: nanoseconds each, medians of {rounds} interleaved runs;");
    println!("instructions each, by callgrind");
    print!("{:26}", "");
    columns("plain");
    for (row, (name, ..)) in PREFIXES.into_iter().enumerate() {
        print!("{name:26} |");
        let mut prefixes = prefixes(row);
        let calls = prefixes.len();
        each(&mut prefixes, calls, WAYS, rounds, ("prefix", &[row]));
    }
}

/// The run that is counted: row, way and passes, as numbers.
pub fn child(words: &[&str]) -> ExitCode {
    let numbers: Vec<usize> = words.iter().filter_map(|word| word.parse().ok()).collect();
    let &[row, way @ 0..=2, passes] = numbers.as_slice() else {
        return ExitCode::from(2);
    };
    if row >= PREFIXES.len() {
        return ExitCode::from(2);
    }
    let mut prefixes = prefixes(row);
    for _ in 0..passes {
        black_box(WAYS[way](black_box(&mut prefixes)));
    }
    ExitCode::SUCCESS
}
