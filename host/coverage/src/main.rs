//! Prints what the stored samples reach: `coverage FILE...`.

use std::{env, fs, io};

use coverage::{BRANCHES, LINES, POINTS, missed, replay};

fn main() -> io::Result<()> {
    for path in env::args_os().skip(1) {
        let samples = samples::read(&fs::read(&path)?).expect("a file of samples");
        let right = samples.iter().filter(|sample| replay(sample)).count();
        println!("{}: {right} of {} right", path.display(), samples.len());
    }
    let lines = LINES.iter().filter(|line| line.reached()).count();
    println!("lines: {lines} of {}", LINES.len());
    let points = POINTS.len() - missed().count();
    println!("statements and arms: {points} of {}", POINTS.len());
    let branches = BRANCHES.iter().filter(|branch| branch.reached()).count();
    println!("ways out: {branches} of {}", BRANCHES.len());
    for line in LINES.iter().filter(|line| !line.reached()) {
        println!("not reached: {}.rs line {}", line.file, line.line);
    }
    for point in missed() {
        println!(
            "not reached: {}.rs {} in line {}",
            point.file, point.function, point.line
        );
    }
    for branch in BRANCHES.iter().filter(|branch| !branch.reached()) {
        let from = &POINTS[branch.from];
        let way = if branch.kind == "?" {
            "`?` returns"
        } else {
            "`if` is not entered"
        };
        println!(
            "not taken: {}.rs {} in line {}: {way}",
            from.file, from.function, from.line
        );
    }
    Ok(())
}
