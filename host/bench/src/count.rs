//! Instructions, counted by callgrind over runs of this program itself.

use std::env;
use std::hint::black_box;
use std::process::{Command, ExitCode};

use bench::corpus::{KINDS, Kind};
use bench::{WAYS, Way};

use crate::Load;

/// Instructions of one pass over a kind at this size; none where valgrind is
/// not there.
pub fn instructions(kind: Kind, size: usize, way: Way) -> Option<u64> {
    let kind = KINDS.iter().position(|&k| k == kind)?;
    let way = WAYS.iter().position(|&w| w == way)?;
    of_a_pass("count", &[kind, size, way])
}

/// Instructions of one pass, where this program makes as many as its last
/// number says when it is called with this word and these numbers.
pub fn of_a_pass(word: &str, numbers: &[usize]) -> Option<u64> {
    // What is no pass is the same in both runs. The first pass may find the
    // memory as no later one does.
    let few = collected(word, numbers, 2)?;
    let more = collected(word, numbers, 4)?;
    Some((more - few) / 2)
}

/// What callgrind says of a run of so many passes.
fn collected(word: &str, numbers: &[usize], passes: usize) -> Option<u64> {
    let output = Command::new("valgrind")
        .args(["--tool=callgrind", "--callgrind-out-file=/dev/null"])
        .arg(env::current_exe().ok()?)
        .arg(word)
        .args(numbers.iter().chain([&passes]).map(|n| n.to_string()))
        .output()
        .ok()?;
    let text = String::from_utf8_lossy(&output.stderr);
    let line = text.lines().find(|line| line.contains("Collected : "))?;
    line.split_whitespace().last()?.parse().ok()
}

/// The run that is counted: kind, size, way and passes, as numbers.
pub fn child(words: &[&str]) -> ExitCode {
    let numbers: Vec<usize> = words.iter().filter_map(|word| word.parse().ok()).collect();
    let &[kind, size, way, passes] = numbers.as_slice() else {
        return ExitCode::from(2);
    };
    let (Some(kind), Some(&way)) = (KINDS.get(kind), WAYS.get(way)) else {
        return ExitCode::from(2);
    };
    let mut load = Load::new(kind.inputs(size));
    for _ in 0..passes {
        black_box(black_box(&mut load).run(way));
    }
    ExitCode::SUCCESS
}
