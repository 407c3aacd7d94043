//! The readings of blocks: of one length each, and absent ones.

use std::hint::black_box;
use std::process::ExitCode;

use bench::careful::blocks as careful;
use bench::corpus::{BLOCKS, blocks};
use inputs::Input;
use oracle::{Call, Walk};
use ospf_strip::exports;

use crate::{columns, each};

/// One way to read all blocks of a row. Each is a function of its own, so that
/// it calls what it measures by name, as a program would.
type Pass = fn(blocks: &mut Blocks) -> u64;

/// The port, careful Rust and the reference over the recording stand-in, which
/// does not use the strip.
fn ways(walk: Walk) -> [Pass; 3] {
    match walk {
        Walk::Lls => [
            |blocks| blocks.run(exports::ospf_lls),
            |blocks| blocks.run(careful::lls),
            |blocks| blocks.run(|data, offset, _| recorded(Walk::Lls, data, offset)),
        ],
        _ => [
            |blocks| blocks.run(exports::ospf_auth_trailer),
            |blocks| blocks.run(careful::auth_trailer),
            |blocks| blocks.run(|data, offset, _| recorded(Walk::AuthTrailer, data, offset)),
        ],
    }
}

fn recorded(walk: Walk, data: &[u8], offset: u64) -> u64 {
    let call = Call {
        version: 3,
        walk,
        data,
        count: 0,
        offset,
    };
    call.record().fields().len() as u64
}

/// The blocks of a row, and room for the strip of any of them.
struct Blocks {
    inputs: Vec<Input>,
    strip: [u8; 79],
}

impl Blocks {
    fn new(row: usize) -> Blocks {
        Blocks {
            inputs: blocks(row),
            strip: [0; 79],
        }
    }

    /// One call for each block.
    fn run(&mut self, read: impl Fn(&[u8], u64, &mut [u8]) -> u64) -> u64 {
        let Blocks { inputs, strip } = self;
        let answers = inputs.iter().map(|i| read(&i.data, i.offset, strip));
        answers.sum()
    }
}

/// A row for each kind of block: the time of a reading, and instructions.
pub fn print(rounds: usize) {
    println!("the blocks: nanoseconds a reading, medians of {rounds} interleaved runs;");
    println!("instructions a reading, by callgrind");
    print!("{:26}", "");
    columns("reference");
    for (row, (name, walk, ..)) in BLOCKS.into_iter().enumerate() {
        print!("{name:26} |");
        let mut blocks = Blocks::new(row);
        let calls = blocks.inputs.len();
        each(&mut blocks, calls, ways(walk), rounds, ("block", &[row]));
    }
}

/// The run that is counted: row, way and passes, as numbers.
pub fn child(words: &[&str]) -> ExitCode {
    let numbers: Vec<usize> = words.iter().filter_map(|word| word.parse().ok()).collect();
    let &[row, way @ 0..=2, passes] = numbers.as_slice() else {
        return ExitCode::from(2);
    };
    let Some(&(_, walk, ..)) = BLOCKS.get(row) else {
        return ExitCode::from(2);
    };
    let mut blocks = Blocks::new(row);
    for _ in 0..passes {
        black_box(ways(walk)[way](black_box(&mut blocks)));
    }
    ExitCode::SUCCESS
}
