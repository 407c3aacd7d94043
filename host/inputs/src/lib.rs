//! Inputs for the three walks and the two readings of a block: seeded,
//! deterministic, and each of a class.
//!
//! [`each`] hands them out one by one, so that millions need no memory. The
//! same seed and rounds give the same inputs on every machine.

mod blocks;
mod edges;
mod lsa;
mod ones;
mod places;
mod random;
mod rng;
mod sweeps;

use std::collections::BTreeMap;

pub use blocks::with_length_field;
pub use lsa::{V2_TYPES, V3_FUNCTIONS, lsa, structured, update};
use oracle::{Call, Walk};
pub use places::{Place, Places};
pub use rng::Rng;

/// The largest offset that no walk turns down.
pub const MOST_OFFSET: u64 = 4_294_901_760;

/// What an input is made to try.
#[derive(Clone, Copy, Debug, PartialEq, Eq, PartialOrd, Ord)]
pub enum Class {
    /// Every body of up to two bytes, for each type and function.
    Short,
    /// Every LS type of both versions, and every opaque type.
    Type,
    /// TOS counts 0 to 255, around the body's end.
    Tos,
    /// Prefix lengths 0 to 255, around the body's end.
    Prefix,
    /// Every flags byte of the bodies that have one.
    Flags,
    /// Counts of records, links and prefixes below, at and above what is there.
    Count,
    /// Every declared length of a record.
    DeclaredLength,
    /// Offsets from 0 to beyond the largest.
    Offset,
    /// Calls that are turned down.
    Refused,
    /// Data of up to 65,535 bytes.
    Large,
    /// Whole LSAs, header lists and updates with random contents.
    Structured,
    /// Structured data cut at every byte.
    Truncated,
    /// Structured data with changed, missing or added bytes.
    Damaged,
    /// Bytes without a plan.
    Random,
    /// Blocks alone, before other bytes, cut and damaged.
    Block,
    /// Every length field of a block, and each around the data's length.
    BlockLength,
    /// Metrics and other values of all ones, and nearly so.
    Unreachable,
    /// Taken from captures; not made here.
    Captured,
}

/// The classes made here, in the order in which [`each`] hands them out.
pub const CLASSES: [Class; 17] = [
    Class::Short,
    Class::Type,
    Class::Tos,
    Class::Prefix,
    Class::Flags,
    Class::Count,
    Class::DeclaredLength,
    Class::Offset,
    Class::Refused,
    Class::Large,
    Class::Structured,
    Class::Truncated,
    Class::Damaged,
    Class::Random,
    Class::Block,
    Class::BlockLength,
    Class::Unreachable,
];

/// One call, with its own data.
#[derive(Clone, Debug, PartialEq, Eq)]
pub struct Input {
    pub class: Class,
    pub version: u8,
    pub walk: Walk,
    pub data: Vec<u8>,
    pub count: u32,
    pub offset: u64,
}

impl Input {
    /// The call on these data.
    pub fn call(&self) -> Call<'_> {
        Call {
            version: self.version,
            walk: self.walk,
            data: &self.data,
            count: self.count,
            offset: self.offset,
        }
    }
}

/// Takes one input after another.
pub type Take<'a> = dyn FnMut(Input) + 'a;

/// Hands out the inputs of one class. Classes that are not exhaustive grow
/// with `rounds`.
pub fn of_class(class: Class, seed: u64, rounds: u32, take: &mut Take<'_>) {
    let mut rng = Rng::new(seed ^ (class as u64) << 56);
    let rng = &mut rng;
    match class {
        Class::Short => sweeps::short(take),
        Class::Type => sweeps::types(rng, take),
        Class::Tos => sweeps::tos(rng, take),
        Class::Prefix => sweeps::prefix(rng, take),
        Class::Flags => sweeps::flags(rng, take),
        Class::Count => edges::count(rng, take),
        Class::DeclaredLength => edges::declared_length(rng, take),
        Class::Offset => edges::offset(rng, take),
        Class::Refused => edges::refused(rng, take),
        Class::Large => edges::large(rng, take),
        Class::Structured => random::structured(rng, rounds, take),
        Class::Truncated => random::truncated(rng, rounds, take),
        Class::Damaged => random::damaged(rng, rounds, take),
        Class::Random => random::random(rng, rounds, take),
        Class::Block => blocks::block(rng, rounds, take),
        Class::BlockLength => blocks::block_length(rng, take),
        Class::Unreachable => ones::unreachable(rng, take),
        Class::Captured => {}
    }
}

/// Hands out the inputs of every class.
pub fn each(seed: u64, rounds: u32, take: &mut Take<'_>) {
    for class in CLASSES {
        of_class(class, seed, rounds, take);
    }
}

/// How many inputs [`each`] makes, by class.
pub fn counts(seed: u64, rounds: u32) -> BTreeMap<Class, u64> {
    let mut counts = BTreeMap::new();
    each(seed, rounds, &mut |input| {
        *counts.entry(input.class).or_insert(0) += 1
    });
    counts
}
