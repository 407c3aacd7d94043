//! How the port's cost grows with the data.

use bench::Way;
use bench::corpus::{KINDS, Kind};

use crate::{Load, MOST, count};

const SIZES: [usize; 7] = [1_024, 2_048, 4_096, 8_192, 16_384, 32_768, MOST];

/// The cost for each byte of data, at each size.
pub fn print(rounds: usize) {
    println!("the port at data of so many bytes: nanoseconds and instructions for each byte");
    print!("{:26}", "");
    SIZES.iter().for_each(|size| print!(" |{size:>12}"));
    println!();
    for kind in KINDS.into_iter().filter(|&kind| kind != Kind::Captures) {
        print!("{:26}", kind.name());
        for size in SIZES {
            let mut load = Load::new(kind.inputs(size));
            let bytes = load.bytes() as f64;
            let [time] = load.medians([Way::Port], rounds);
            print!(" |{:6.3}", time / bytes);
            match count::instructions(kind, size, Way::Port) {
                Some(n) => print!("{:6.2}", n as f64 / bytes),
                None => print!("{:>6}", "?"),
            }
        }
        println!();
    }
}
