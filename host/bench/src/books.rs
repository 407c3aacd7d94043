//! Updates taken against rows: of few LSAs and of most, against few rows and
//! many.

use std::hint::black_box;
use std::process::ExitCode;

use bench::careful::book::{by_map, careful};
use bench::corpus::{BOOKS, Book, book};
use ospf_strip::{Row, exports};

use crate::{columns, each};

/// A book whose updates are taken again and again.
struct Load {
    rows: Vec<Row>,
    updates: Vec<Update>,
}

/// An update, and the rows that it changes as they are before: they are put
/// back after it.
struct Update {
    data: Vec<u8>,
    before: Vec<(usize, Row)>,
}

impl Load {
    fn new(row: usize) -> Load {
        let Book { rows, updates } = book(row);
        let update = |data: Vec<u8>| {
            let mut after = rows.clone();
            careful(2, &data, u32::MAX, 0, &mut after);
            let places = (0..rows.len()).filter(|&place| rows[place] != after[place]);
            let before = places.map(|place| (place, rows[place])).collect();
            Update { data, before }
        };
        let updates = updates.into_iter().map(update).collect();
        Load { rows, updates }
    }

    fn run(&mut self, take: impl Fn(u8, &[u8], u32, u64, &mut [Row]) -> u64) -> u64 {
        let Load { rows, updates } = self;
        let answers = updates.iter().map(|Update { data, before }| {
            let answer = take(2, data, u32::MAX, 0, rows);
            for &(place, row) in before {
                rows[place] = row;
            }
            answer
        });
        answers.sum()
    }
}

/// One way to take all updates of a row. Each is a function of its own, so that
/// it calls what it measures by name, as a program would.
type Pass = fn(&mut Load) -> u64;

/// The port, careful Rust and Rust with a map.
const WAYS: [Pass; 3] = [
    |load| load.run(exports::ospf_book_update),
    |load| load.run(careful),
    |load| load.run(by_map),
];

/// A row for each number of LSAs and of rows: the time of an update, and
/// instructions.
pub fn print(rounds: usize) {
    println!("the book: microseconds an update, medians of {rounds} interleaved runs;");
    println!("thousands of instructions an update, by callgrind");
    print!("{:26}", "");
    columns("map");
    for (row, (rows, lsas)) in BOOKS.into_iter().enumerate() {
        print!("{:26} |", format!("{lsas} LSAs, {rows} rows"));
        let mut load = Load::new(row);
        let thousands = 1_000 * load.updates.len();
        each(&mut load, thousands, WAYS, rounds, ("book", &[row]));
    }
}

/// The run that is counted: row, way and passes, as numbers.
pub fn child(words: &[&str]) -> ExitCode {
    let numbers: Vec<usize> = words.iter().filter_map(|word| word.parse().ok()).collect();
    let &[row, way @ 0..=2, passes] = numbers.as_slice() else {
        return ExitCode::from(2);
    };
    if row >= BOOKS.len() {
        return ExitCode::from(2);
    }
    let mut load = Load::new(row);
    for _ in 0..passes {
        black_box(WAYS[way](black_box(&mut load)));
    }
    ExitCode::SUCCESS
}
