//! The walk alone beside the walk with every field read: in Rust by the
//! strip's own loop and by an ordinary `for`, and in C.

use bench::READERS;
use bench::corpus::{KINDS, Kind};

use crate::{Load, MOST, count};

pub fn print(rounds: usize) {
    println!("the walk, and the walk with every field read: microseconds, medians of {rounds}");
    println!("interleaved runs, and their ratios to the walk; thousands of instructions");
    print!("{:26}{:>8} |{:>7}", "", "entries", "walk");
    for _ in 0..2 {
        print!("{:>8}{:>8}{:>8}", "Rust", "for", "C");
    }
    println!(" |{:>8}{:>8}{:>8}{:>8}", "walk", "Rust", "for", "C");
    for kind in KINDS {
        row(kind, rounds);
    }
}

fn row(kind: Kind, rounds: usize) {
    let mut load = Load::new(kind.inputs(MOST));
    print!("{:26}{:>8} |", kind.name(), entries(&mut load));
    let [walk, readers @ ..] = load.medians(READERS, rounds);
    print!("{:7.1}", walk / 1e3);
    readers.iter().for_each(|ns| print!("{:8.1}", ns / 1e3));
    readers.iter().for_each(|ns| print!("{:8.2}", ns / walk));
    print!(" |");
    match READERS.map(|way| count::instructions(kind, MOST, way)) {
        [Some(a), Some(b), Some(c), Some(d)] => {
            let counts = [a, b, c, d].map(|n| n as f64 / 1e3);
            counts.iter().for_each(|n| print!("{n:8.1}"));
        }
        _ => print!(" not counted: no valgrind"),
    }
    println!();
}

/// How many entries the strips of a load have.
fn entries(load: &mut Load) -> usize {
    let Load { inputs, strip } = load;
    let count = |input| bench::walked(input, strip).entries().count();
    inputs.iter().map(count).sum()
}

/// The ratios to the walk on a corpus of another seed, a line a kind: for
/// figures by which no loop was chosen.
pub fn print_seeded(rounds: usize, seed: u64) {
    println!("seed {seed}: microseconds of the walk, then its ratios: Rust, for, C");
    for kind in KINDS.into_iter().filter(|&kind| kind != Kind::Captures) {
        let mut load = Load::new(kind.seeded(MOST, seed));
        let [walk, readers @ ..] = load.medians(READERS, rounds);
        print!("{:26}{:7.1}", kind.name(), walk / 1e3);
        readers.iter().for_each(|ns| print!("{:8.2}", ns / walk));
        println!();
    }
}
