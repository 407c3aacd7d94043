//! Times by the clock.

use std::hint::black_box;
use std::time::{Duration, Instant};

/// How long one sample takes at least.
const SAMPLE: Duration = Duration::from_micros(500);

/// The median time of one pass over the load, in nanoseconds, each way. The
/// ways take turns, so that what else the machine does meets all of them.
pub fn medians<L, const N: usize>(
    load: &mut L,
    ways: [impl Fn(&mut L) -> u64 + Copy; N],
    rounds: usize,
) -> [f64; N] {
    let passes = ways.map(|way| passes(load, way));
    let mut samples = ways.map(|_| Vec::with_capacity(rounds));
    for _ in 0..rounds {
        for turn in 0..N {
            samples[turn].push(sample(load, ways[turn], passes[turn]));
        }
    }
    samples.map(median)
}

/// How many passes make a sample.
fn passes<L>(load: &mut L, way: impl Fn(&mut L) -> u64 + Copy) -> u32 {
    let mut passes = 1;
    while sample(load, way, passes) * f64::from(passes) < SAMPLE.as_nanos() as f64 {
        passes *= 2;
    }
    passes
}

/// The time of one pass, from so many.
fn sample<L>(load: &mut L, way: impl Fn(&mut L) -> u64, passes: u32) -> f64 {
    let start = Instant::now();
    for _ in 0..passes {
        black_box(way(black_box(&mut *load)));
    }
    start.elapsed().as_nanos() as f64 / f64::from(passes)
}

fn median(mut samples: Vec<f64>) -> f64 {
    samples.sort_by(f64::total_cmp);
    samples[samples.len() / 2]
}
