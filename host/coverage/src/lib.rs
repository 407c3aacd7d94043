//! Which statements of the reference the stored samples reach.
//!
//! The build makes copies of the reference files that count; the oracle's own
//! conversion is compiled a second time on top of them, so that the samples
//! can be replayed and their answers checked at the same time.

use std::sync::atomic::{AtomicU64, Ordering};

include!(concat!(env!("OUT_DIR"), "/modules.rs"));
include!(concat!(env!("OUT_DIR"), "/points.rs"));

// The oracle's conversion, on top of the copies.
#[path = "../../oracle/src/ids.rs"]
mod ids;
#[path = "../../oracle/src/strip.rs"]
mod strip;
#[path = "../../oracle/src/unreachable.rs"]
pub mod unreachable;
#[path = "../../oracle/src/walks.rs"]
mod walks;

pub use ids::FieldName;
use samples::Sample;
pub use walks::{Answer, Call, Outcome, Walk};

/// A statement or match arm of a ported function.
#[derive(Debug)]
pub struct Point {
    pub file: &'static str,
    pub function: &'static str,
    pub line: usize,
}

/// A line of a ported function, with the points whose code stands on it.
#[derive(Debug)]
pub struct Line {
    pub file: &'static str,
    pub line: usize,
    pub points: &'static [usize],
}

/// A way out that has no statement of its own: a `?` that returns, or an
/// `if` without `else` that is not entered.
#[derive(Debug)]
pub struct Branch {
    pub kind: &'static str,
    pub from: usize,
    pub to: usize,
}

static COUNTS: [AtomicU64; POINTS.len()] = [const { AtomicU64::new(0) }; POINTS.len()];

/// Counts a point.
pub(crate) fn count(point: usize) {
    COUNTS[point].fetch_add(1, Ordering::Relaxed);
}

fn counted(point: usize) -> u64 {
    COUNTS[point].load(Ordering::Relaxed)
}

impl Line {
    /// Whether any code on the line ran.
    pub fn reached(&self) -> bool {
        self.points.iter().any(|&point| counted(point) > 0)
    }
}

impl Branch {
    /// Whether the way out was taken.
    pub fn reached(&self) -> bool {
        counted(self.from) > counted(self.to)
    }
}

/// The points that were not reached.
pub fn missed() -> impl Iterator<Item = &'static Point> {
    let points = POINTS.iter().enumerate();
    points.filter_map(|(i, point)| (counted(i) == 0).then_some(point))
}

/// Replays a sample on the counting copies; whether the answer is the stored
/// one.
pub fn replay(sample: &Sample) -> bool {
    let call = Call {
        version: sample.version,
        walk: Walk::ALL[sample.walk as usize],
        data: &sample.data,
        count: sample.count,
        offset: sample.offset,
    };
    let mut strip = vec![0; sample.room as usize];
    let answer = call.run().lend(&mut strip);
    let stored = &sample.answer;
    let same = (answer.number, answer.length) == (stored.number, stored.length)
        && (answer.records, answer.tail) == (stored.records, stored.tail)
        && answer.block == stored.block;
    same && strip.starts_with(&sample.strip)
}
