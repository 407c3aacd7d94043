//! Runs the port, careful Rust and the reference over one corpus and prints
//! what each takes, what reading every field adds, and what the LS checksum,
//! the blocks, the prefix comparison and the book take: `bench [ROUNDS]`;
//! reading on a corpus of another seed: `bench reading ROUNDS SEED`; one of the
//! four alone: `bench checksums [ROUNDS]`, `bench blocks [ROUNDS]`, `bench
//! prefixes [ROUNDS]`, `bench books [ROUNDS]`. The other words are what it calls
//! itself with, under valgrind: `count`, `checksum`, `block`, `prefix`, `book`
//! and `stack`.

mod blocks;
mod books;
mod checksums;
mod count;
mod growth;
mod prefixes;
mod reading;
mod stack;
mod time;

use std::env;
use std::hint::black_box;
use std::process::ExitCode;

use bench::corpus::{KINDS, Kind};
use bench::{WALKS, Way};
use inputs::Input;

/// The most data of a call.
const MOST: usize = 65_535;

/// How many runs a median is taken of.
const ROUNDS: usize = 101;

/// The corpus of one kind with a buffer that is long enough for each strip.
struct Load {
    inputs: Vec<Input>,
    strip: Vec<u8>,
}

impl Load {
    fn new(inputs: Vec<Input>) -> Load {
        let needed = |input| bench::PORT.run(input, &mut []) as u32 as usize;
        let most = inputs.iter().map(needed).max().unwrap_or(0);
        Load {
            inputs,
            strip: vec![0; most],
        }
    }

    /// One call for each input.
    fn run(&mut self, way: Way) -> u64 {
        let Load { inputs, strip } = self;
        inputs.iter().map(|input| way.run(input, strip)).sum()
    }

    fn bytes(&self) -> usize {
        self.inputs.iter().map(|input| input.data.len()).sum()
    }

    /// The median time of one pass each way, in nanoseconds.
    fn medians<const N: usize>(&mut self, ways: [Way; N], rounds: usize) -> [f64; N] {
        let runs = ways.map(|way| move |load: &mut Load| load.run(way));
        time::medians(self, runs, rounds)
    }
}

fn main() -> ExitCode {
    // After this the allocator keeps what the reference frees; its time would
    // be that of getting pages from the system again.
    drop(black_box(vec![0_u8; 16 << 20]));
    let words: Vec<String> = env::args().skip(1).collect();
    let words: Vec<&str> = words.iter().map(String::as_str).collect();
    match words.as_slice() {
        ["count", rest @ ..] => return count::child(rest),
        ["checksum", rest @ ..] => return checksums::child(rest),
        ["block", rest @ ..] => return blocks::child(rest),
        ["prefix", rest @ ..] => return prefixes::child(rest),
        ["book", rest @ ..] => return books::child(rest),
        ["stack"] => stack::child(),
        ["reading", rounds, seed] => match (rounds.parse(), seed.parse()) {
            (Ok(rounds @ 1..), Ok(seed)) => reading::print_seeded(rounds, seed),
            _ => return usage(),
        },
        ["checksums", rest @ ..] => return printed(checksums::print, rest),
        ["blocks", rest @ ..] => return printed(blocks::print, rest),
        ["prefixes", rest @ ..] => return printed(prefixes::print, rest),
        ["books", rest @ ..] => return printed(books::print, rest),
        rest => return printed(all, rest),
    }
    ExitCode::SUCCESS
}

/// Prints by as many rounds as the words say, or as is usual.
fn printed(print: fn(usize), words: &[&str]) -> ExitCode {
    let rounds = match words {
        [] => Ok(ROUNDS),
        [rounds] => rounds.parse(),
        _ => return usage(),
    };
    let Ok(rounds @ 1..) = rounds else {
        return usage();
    };
    print(rounds);
    ExitCode::SUCCESS
}

fn usage() -> ExitCode {
    eprintln!(
        "usage: bench [ROUNDS], bench reading ROUNDS SEED, or bench checksums, blocks, prefixes or books [ROUNDS]"
    );
    ExitCode::from(2)
}

fn all(rounds: usize) {
    println!("one pass over each kind: microseconds, medians of {rounds} interleaved runs;");
    println!("thousands of instructions, by callgrind");
    heading();
    for kind in KINDS {
        row(kind, rounds);
    }
    println!();
    reading::print(rounds);
    println!();
    growth::print(rounds);
    println!();
    checksums::print(rounds);
    println!();
    blocks::print(rounds);
    println!();
    prefixes::print(rounds);
    println!();
    books::print(rounds);
    println!();
    stack::print();
}

fn heading() {
    print!("{:26}{:>7}", "", "bytes");
    columns("reference");
}

/// The columns of times and of instructions, with this name for the third way.
fn columns(third: &str) {
    for _ in 0..2 {
        print!(" |{:>9}{:>9}{third:>10}", "port", "careful");
        print!("{:>6}{:>6}", "p/c", format!("p/{}", &third[..1]));
    }
    println!();
}

/// The times and instructions of one kind.
fn row(kind: Kind, rounds: usize) {
    let mut load = Load::new(kind.inputs(MOST));
    print!("{:26}{:>7} |", kind.name(), load.bytes());
    figures(load.medians(WALKS, rounds).map(|ns| ns / 1e3));
    print!(" |");
    match WALKS.map(|way| count::instructions(kind, MOST, way)) {
        [Some(port), Some(careful), Some(reference)] => {
            figures([port, careful, reference].map(|n| n as f64 / 1e3));
        }
        _ => print!(" not counted: no valgrind"),
    }
    println!();
}

/// The rest of a row, for a load of so many calls: the time of each, and its
/// instructions, which this program counts when it is called with this word,
/// these numbers and the number of a way.
fn each<L>(
    load: &mut L,
    calls: usize,
    ways: [impl Fn(&mut L) -> u64 + Copy; 3],
    rounds: usize,
    (word, numbers): (&str, &[usize]),
) {
    let calls = calls as f64;
    figures(time::medians(load, ways, rounds).map(|ns| ns / calls));
    print!(" |");
    match [0, 1, 2].map(|way| count::of_a_pass(word, &[numbers, &[way]].concat())) {
        [Some(port), Some(careful), Some(third)] => {
            figures([port, careful, third].map(|n| n as f64 / calls));
        }
        _ => print!(" not counted: no valgrind"),
    }
    println!();
}

/// Three figures, and the port's ratios to the others.
fn figures([port, careful, reference]: [f64; 3]) {
    print!("{port:9.1}{careful:9.1}{reference:10.1}");
    print!("{:6.2}{:6.2}", port / careful, port / reference);
}
