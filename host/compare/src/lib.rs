//! Compares walks and readings of blocks with the oracle, in one process.
//!
//! Each input is run with four lent buffers: empty, one byte short, exactly
//! full, and larger; where nothing is needed, with an empty and a larger one.
//! Compared are the packed answer and every byte of the buffer, and of a margin
//! on both sides of it: nothing may be written on a refusal or for an absent
//! block, nothing past the strip, nothing outside the buffer. Records and tail
//! are not in the packed answer; the stored samples have them. Where the reference
//! has LSInfinity as a number, the oracle's strip says unreachable
//! (`oracle::unreachable`).

use std::collections::BTreeMap;
use std::fmt;

use inputs::{Class, Input, Places, Take};
use oracle::{Outcome, Walk};
use ospf_strip::exports;

/// The walks and readings to compare, in the shapes of the static library's exports.
#[derive(Clone, Copy)]
pub struct Walks {
    pub headers: fn(version: u8, data: &[u8], offset: u64, strip: &mut [u8]) -> u64,
    pub update: fn(version: u8, data: &[u8], count: u32, offset: u64, strip: &mut [u8]) -> u64,
    pub lsa: fn(version: u8, data: &[u8], offset: u64, strip: &mut [u8]) -> u64,
    pub lls: fn(data: &[u8], offset: u64, strip: &mut [u8]) -> u64,
    pub auth_trailer: fn(data: &[u8], offset: u64, strip: &mut [u8]) -> u64,
}

/// The proved ones, behind `ospf-strip`.
pub const PROVED: Walks = Walks {
    headers: exports::ospf_lsa_headers,
    update: exports::ospf_lsu_lsas,
    lsa: exports::ospf_lsa,
    lls: exports::ospf_lls,
    auth_trailer: exports::ospf_auth_trailer,
};

impl Walks {
    /// Calls the one that the input names, and gives its packed answer.
    pub fn run(&self, input: &Input, strip: &mut [u8]) -> u64 {
        let (version, data, offset) = (input.version, &input.data, input.offset);
        match input.walk {
            Walk::Headers => (self.headers)(version, data, offset, strip),
            Walk::Update => (self.update)(version, data, input.count, offset, strip),
            Walk::Lsa => (self.lsa)(version, data, offset, strip),
            Walk::Lls => (self.lls)(data, offset, strip),
            Walk::AuthTrailer => (self.auth_trailer)(data, offset, strip),
        }
    }
}

/// Bytes on each side of a lent buffer that must stay as they are.
const MARGIN: usize = 16;

/// How much longer than needed the larger buffer is.
const MORE: usize = 37;

/// A call on which walks and oracle disagree.
#[derive(Clone, Debug, PartialEq, Eq)]
pub struct Difference {
    pub input: Input,
    pub room: usize,
    /// The packed answers.
    pub expected: u64,
    pub found: u64,
    /// The first byte that differs, counted from the buffer's start, with
    /// what was expected and what was found there.
    pub byte: Option<(isize, u8, u8)>,
}

impl fmt::Display for Difference {
    fn fmt(&self, f: &mut fmt::Formatter<'_>) -> fmt::Result {
        let Input {
            class,
            version,
            walk,
            data,
            count,
            offset,
        } = &self.input;
        writeln!(f, "class {class:?}, version {version}, walk {walk:?}")?;
        writeln!(f, "count {count}, offset {offset}, room {}", self.room)?;
        writeln!(f, "answer {:#x}, expected {:#x}", self.found, self.expected)?;
        if let Some((at, expected, found)) = self.byte {
            writeln!(f, "byte {at} is {found:#04x}, expected {expected:#04x}")?;
        }
        write!(f, "data of {} bytes:", data.len())?;
        data.iter().try_for_each(|byte| write!(f, " {byte:02x}"))
    }
}

/// What was compared: inputs and calls by class, and the values of all ones in
/// the strips, by place.
#[derive(Debug, Default)]
pub struct Counts {
    pub classes: BTreeMap<Class, (u64, u64)>,
    pub places: Places,
}

/// Compares the walks on one input, with each buffer.
pub struct Comparison {
    walks: Walks,
    calls: u64,
    places: Places,
}

impl Comparison {
    /// Compares these walks.
    pub fn of(walks: Walks) -> Comparison {
        Comparison {
            walks,
            calls: 0,
            places: Places::default(),
        }
    }

    /// The first difference on this input, if there is one.
    pub fn input(&mut self, input: &Input) -> Option<Difference> {
        let outcome = input.call().run();
        if let (false, Outcome::Accepted { strip, .. }) = (input.walk.is_block(), &outcome) {
            self.places.count(input.version, strip);
        }
        let needed = outcome.answer(usize::MAX).length as usize;
        let mut rooms = vec![0, needed.saturating_sub(1), needed, needed + MORE];
        rooms.dedup();
        rooms.into_iter().find_map(|room| {
            self.calls += 1;
            // Two fillings by turns, so that no byte can hide in the filling.
            let filling = if self.calls.is_multiple_of(2) {
                0xA5
            } else {
                0x5A
            };
            let mut expected = vec![filling; room + 2 * MARGIN];
            let mut found = expected.clone();
            let answer = outcome.lend(&mut expected[MARGIN..MARGIN + room]).packed();
            let other = self.walks.run(input, &mut found[MARGIN..MARGIN + room]);
            let same = answer == other && expected == found;
            (!same).then(|| Difference {
                input: input.clone(),
                room,
                expected: answer,
                found: other,
                byte: first(&expected, &found),
            })
        })
    }
}

fn first(expected: &[u8], found: &[u8]) -> Option<(isize, u8, u8)> {
    let at = expected.iter().zip(found).position(|(a, b)| a != b)?;
    Some((at as isize - MARGIN as isize, expected[at], found[at]))
}

/// Compares the walks on all inputs of these classes, and on those of the
/// published captures for [`Class::Captured`]. A difference ends the
/// comparison with its class, and the smallest one seen is given back.
pub fn compare(
    walks: Walks,
    classes: &[Class],
    seed: u64,
    rounds: u32,
) -> Result<Counts, Box<Difference>> {
    let mut counts = Counts::default();
    for &class in classes {
        let mut comparison = Comparison::of(walks);
        let mut inputs = 0;
        let mut smallest: Option<Difference> = None;
        each(class, seed, rounds, &mut |input| {
            inputs += 1;
            let smaller = |s: &Difference| input.data.len() < s.input.data.len();
            if smallest.as_ref().is_none_or(smaller) {
                smallest = comparison.input(&input).or(smallest.take());
            }
        });
        if let Some(difference) = smallest {
            return Err(Box::new(difference));
        }
        counts.classes.insert(class, (inputs, comparison.calls));
        counts.places.add(&comparison.places);
    }
    Ok(counts)
}

/// Hands out the inputs of a class.
fn each(class: Class, seed: u64, rounds: u32, take: &mut Take<'_>) {
    if class == Class::Captured {
        let files = captures::published().expect("the published captures");
        let inputs = files.iter().flat_map(|(_, file)| captures::inputs(file));
        inputs.for_each(take);
    } else {
        inputs::of_class(class, seed, rounds, take);
    }
}
