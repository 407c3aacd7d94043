//! Compares implementations of the LS checksum, in one process: what they
//! answer, and every byte of the LSA afterwards, with a margin on both sides.

pub mod naive;

use std::fmt;

use inputs::Rng;
use ospf_strip::exports;

/// The check and the making, in the shapes of the static library's exports.
#[derive(Clone, Copy)]
pub struct Checksum {
    pub check: fn(lsa: &[u8]) -> u64,
    pub make: fn(lsa: &mut [u8]) -> u64,
}

/// The proved functions, behind `ospf-strip`.
pub const PROVED: Checksum = Checksum {
    check: exports::ospf_lsa_checksum_check,
    make: exports::ospf_lsa_checksum_make,
};

/// The second implementation.
pub const NAIVE: Checksum = Checksum {
    check: naive::check,
    make: naive::make,
};

/// Bytes on each side of a lent LSA that must stay as they are.
const MARGIN: usize = 16;

/// The longest LSA.
pub const MOST: usize = 65_535;

/// How many records were compared.
#[derive(Clone, Copy, Debug, Default, PartialEq, Eq)]
pub struct Counts {
    /// As generated; few of them are good.
    pub generated: u64,
    /// With their checksum made.
    pub made: u64,
    /// Made, then with one byte changed that the checksum covers.
    pub damaged: u64,
    /// Of these, those that are still good: 0 for 255, or 255 for 0.
    pub not_found: u64,
    /// Too short or too long.
    pub refused: u64,
}

impl Counts {
    /// Counts the records of another part, too.
    pub fn add(&mut self, other: Counts) {
        self.generated += other.generated;
        self.made += other.made;
        self.damaged += other.damaged;
        self.not_found += other.not_found;
        self.refused += other.refused;
    }
}

impl fmt::Display for Counts {
    fn fmt(&self, f: &mut fmt::Formatter<'_>) -> fmt::Result {
        write!(f, "{} generated, {} made, ", self.generated, self.made)?;
        write!(f, "{} damaged by a byte, ", self.damaged)?;
        write!(f, "{} of them still good, ", self.not_found)?;
        write!(f, "{} refused", self.refused)
    }
}

/// A call on which two implementations disagree.
#[derive(Clone, Debug, PartialEq, Eq)]
pub struct Difference {
    pub call: &'static str,
    pub lsa: Vec<u8>,
    pub expected: (u64, Vec<u8>),
    pub found: (u64, Vec<u8>),
}

impl fmt::Display for Difference {
    fn fmt(&self, f: &mut fmt::Formatter<'_>) -> fmt::Result {
        let (expected, found) = (self.expected.0, self.found.0);
        writeln!(f, "{}: {found:#x}, expected {expected:#x}", self.call)?;
        let bytes = self.expected.1.iter().zip(&self.found.1);
        for (place, (expected, found)) in bytes.enumerate().filter(|(_, (e, f))| e != f) {
            let place = place as isize - MARGIN as isize;
            writeln!(f, "byte {place} is {found}, expected {expected}")?;
        }
        write!(f, "LSA of {} bytes:", self.lsa.len())?;
        self.lsa
            .iter()
            .try_for_each(|byte| write!(f, " {byte:02x}"))
    }
}

/// Compares one implementation with the second one, on a record of each of
/// these lengths, as it is, made and damaged.
pub fn compare(
    found: Checksum,
    seed: u64,
    lengths: impl Iterator<Item = usize>,
) -> Result<Counts, Box<Difference>> {
    let mut rng = Rng::new(seed);
    let mut counts = Counts::default();
    for length in lengths {
        counts.add(record(found, &mut rng, length)?);
    }
    Ok(counts)
}

fn record(found: Checksum, rng: &mut Rng, length: usize) -> Result<Counts, Box<Difference>> {
    let mut counts = Counts::default();
    let mut lsa = filled(rng, length);
    check(found, &lsa)?;
    make(found, &mut lsa)?;
    if !(20..=MOST).contains(&length) {
        counts.refused = 1;
        return Ok(counts);
    }
    check(found, &lsa)?;
    let place = 2 + rng.below(length - 2);
    let other = match lsa[place] {
        // What is not found stands beside what is.
        0 if rng.below(2) == 0 => 255,
        255 if rng.below(2) == 0 => 0,
        byte => byte ^ (1 + rng.below(255) as u8),
    };
    let alike = [lsa[place], other] == [0, 255] || [lsa[place], other] == [255, 0];
    lsa[place] = other;
    let still_good = check(found, &lsa)? == 1;
    assert!(alike || !still_good, "one byte changed, and not found");
    (counts.generated, counts.made, counts.damaged) = (1, 1, 1);
    counts.not_found = u64::from(still_good);
    Ok(counts)
}

/// Random bytes, or mostly zeros or mostly 255, in which many octets are
/// alike and a checksum's residue is often zero.
fn filled(rng: &mut Rng, length: usize) -> Vec<u8> {
    let filling = match rng.below(4) {
        0 => 0,
        1 => 255,
        _ => return rng.bytes(length),
    };
    let mut bytes = vec![filling; length];
    for _ in 0..rng.below(4).min(length) {
        let place = rng.below(length);
        bytes[place] = rng.byte();
    }
    bytes
}

/// The answer of both checks.
fn check(of: Checksum, lsa: &[u8]) -> Result<u64, Box<Difference>> {
    let (expected, found) = (naive::check(lsa), (of.check)(lsa));
    if expected == found {
        return Ok(found);
    }
    Err(Box::new(Difference {
        call: "check",
        lsa: lsa.to_vec(),
        expected: (expected, Vec::new()),
        found: (found, Vec::new()),
    }))
}

/// Makes the checksum both ways; the LSA is then the one that both gave.
fn make(of: Checksum, lsa: &mut [u8]) -> Result<(), Box<Difference>> {
    let lent = |make: fn(&mut [u8]) -> u64| {
        let mut bytes = vec![0xA5; lsa.len() + 2 * MARGIN];
        let within = MARGIN..MARGIN + lsa.len();
        bytes[within.clone()].copy_from_slice(lsa);
        let answer = make(&mut bytes[within]);
        (answer, bytes)
    };
    let (expected, found) = (lent(naive::make), lent(of.make));
    if expected != found {
        let (call, lsa) = ("make", lsa.to_vec());
        return Err(Box::new(Difference {
            call,
            lsa,
            expected,
            found,
        }));
    }
    lsa.copy_from_slice(&found.1[MARGIN..MARGIN + lsa.len()]);
    Ok(())
}
