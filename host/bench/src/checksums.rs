//! The LS checksum: the check and the making, over records of one length
//! and over records of 20 to 65,535 bytes.

use std::hint::black_box;
use std::process::ExitCode;

use bench::careful::checksum::{CAREFUL, PLAIN};
use checksum::{Checksum, PROVED};
use inputs::Rng;

use crate::{MOST, columns, each};

/// The ways, in the order in which they are printed.
const WAYS: [Checksum; 3] = [PROVED, CAREFUL, PLAIN];

/// Lengths of records; the first row has some of each length between.
const LENGTHS: [usize; 6] = [20, 36, 64, 256, 1_500, MOST];

/// How many bytes the records of one length have together, at least.
const TOGETHER: usize = 4_096;

/// What is done with each record.
#[derive(Clone, Copy)]
enum Call {
    Check,
    Make,
}

const CALLS: [(Call, &str); 2] = [(Call::Check, "check"), (Call::Make, "make")];

/// Records with their checksums made.
struct Records(Vec<Vec<u8>>);

impl Records {
    /// Those of a row: of one length, or of all.
    fn new(row: usize) -> Records {
        let mut rng = Rng::new(row as u64);
        let lengths: Vec<usize> = match row.checked_sub(1) {
            None => all_lengths(),
            Some(row) => vec![LENGTHS[row]; TOGETHER.div_ceil(LENGTHS[row])],
        };
        let mut records: Vec<Vec<u8>> = lengths.iter().map(|&n| rng.bytes(n)).collect();
        for record in &mut records {
            black_box((PROVED.make)(record));
        }
        Records(records)
    }

    /// One call for each record.
    fn run(&mut self, way: Checksum, call: Call) -> u64 {
        let records = self.0.iter_mut();
        match call {
            Call::Check => records.map(|record| (way.check)(record)).sum(),
            Call::Make => records.map(|record| (way.make)(record)).sum(),
        }
    }
}

/// From 20 to 65,535, each about a quarter above the one before; whole words
/// but the last, as LSAs are.
fn all_lengths() -> Vec<usize> {
    let next = |&n: &usize| (n < MOST).then_some((n + n / 16 * 4).min(MOST));
    std::iter::successors(Some(LENGTHS[0]), next).collect()
}

/// A row for each call and length: the time of a record, and instructions.
pub fn print(rounds: usize) {
    println!("the LS checksum: nanoseconds a record, medians of {rounds} interleaved runs;");
    println!("instructions a record, by callgrind");
    print!("{:26}", "");
    columns("plain");
    for (number, (call, name)) in CALLS.into_iter().enumerate() {
        for row in 0..=LENGTHS.len() {
            let length = match row.checked_sub(1) {
                None => "20 to 65,535".to_string(),
                Some(row) => LENGTHS[row].to_string(),
            };
            print!("{:26} |", format!("{name}, {length} bytes"));
            let mut records = Records::new(row);
            let calls = records.0.len();
            let runs = WAYS.map(|way| move |records: &mut Records| records.run(way, call));
            each(
                &mut records,
                calls,
                runs,
                rounds,
                ("checksum", &[row, number]),
            );
        }
    }
}

/// The run that is counted: row, call, way and passes, as numbers.
pub fn child(words: &[&str]) -> ExitCode {
    let numbers: Vec<usize> = words.iter().filter_map(|word| word.parse().ok()).collect();
    let &[row @ 0..=LAST_ROW, call, way, passes] = numbers.as_slice() else {
        return ExitCode::from(2);
    };
    let (Some(&(call, _)), Some(&way)) = (CALLS.get(call), WAYS.get(way)) else {
        return ExitCode::from(2);
    };
    let mut records = Records::new(row);
    for _ in 0..passes {
        black_box(black_box(&mut records).run(way, call));
    }
    ExitCode::SUCCESS
}

const LAST_ROW: usize = LENGTHS.len();
