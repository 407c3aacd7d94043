//! Compares the walks behind `ospf-strip` with the oracle:
//! `compare [ROUNDS [SEED]]`. Prints the inputs and calls by class, and by place
//! how often a value of all ones was compared.

use std::env;
use std::process::ExitCode;

use compare::{PROVED, compare};
use inputs::{CLASSES, Class, Places};

fn main() -> ExitCode {
    let mut numbers = env::args().skip(1).map(|word| word.parse::<u64>());
    let (Ok(rounds), Ok(seed)) = (
        numbers.next().unwrap_or(Ok(1_000)),
        numbers.next().unwrap_or(Ok(1)),
    ) else {
        eprintln!("usage: compare [ROUNDS [SEED]]");
        return ExitCode::from(2);
    };
    let mut total = (0, 0);
    let mut places = Places::default();
    for class in CLASSES.into_iter().chain([Class::Captured]) {
        match compare(PROVED, &[class], seed, rounds as u32) {
            Ok(counts) => {
                let (inputs, calls) = counts.classes[&class];
                places.add(&counts.places);
                total = (total.0 + inputs, total.1 + calls);
                println!("{class:?}: {inputs} inputs, {calls} calls");
            }
            Err(difference) => {
                println!("{difference}");
                return ExitCode::FAILURE;
            }
        }
    }
    print!("{places}");
    if places.seen() != Places::all() {
        println!("a place above has none");
        return ExitCode::FAILURE;
    }
    println!("all: {} inputs, {} calls, no difference", total.0, total.1);
    ExitCode::SUCCESS
}
