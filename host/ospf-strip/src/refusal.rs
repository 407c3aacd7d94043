//! Why a call was turned down, with the requirements' numbers.

use std::error::Error;
use std::fmt;

use crate::exports;

/// A refusal of a walk, of the reading of a block, of a comparison, of a
/// checksum or of an update that is taken against rows.
#[derive(Clone, Copy, Debug, PartialEq, Eq, Hash)]
#[non_exhaustive]
pub enum Refusal {
    /// 1: the version is neither 2 nor 3.
    Version,
    /// 2: more than 65,535 bytes of data.
    TooLong,
    /// 3: the offset is above 4,294,901,760.
    Offset,
    /// 4: fewer than 4 bytes of an update, or than 20 of an LSA.
    TooShort,
    /// 5: the strip is longer than the lent bytes. A [`Buffer`](crate::Buffer)
    /// grows, and so never gives this.
    Room {
        /// How many bytes it takes.
        needed: usize,
    },
    /// 10: the length of a prefix is above 128.
    PrefixLength,
    /// 11: an age is above 3,600, of an LSA or of a used row.
    Age,
    /// 13: fewer than 20 bytes of an LSA whose checksum is asked for, or more
    /// than 65,535.
    LsaLength,
    /// 14: two used rows share an identity.
    SharedIdentity,
    /// 15: an update has more new identities than there are unused rows. A
    /// [`Book`](crate::Book) grows, and so never gives this.
    NoFreeRow,
}

impl Refusal {
    /// The requirements' number.
    #[must_use]
    pub fn number(self) -> u8 {
        match self {
            Refusal::Version => 1,
            Refusal::TooLong => 2,
            Refusal::Offset => 3,
            Refusal::TooShort => 4,
            Refusal::Room { .. } => 5,
            Refusal::PrefixLength => 10,
            Refusal::Age => 11,
            Refusal::LsaLength => 13,
            Refusal::SharedIdentity => 14,
            Refusal::NoFreeRow => 15,
        }
    }

    /// The result of an export's answer, unless it is a refusal.
    pub(crate) fn unless(answer: u64) -> Result<u32, Refusal> {
        let (number, result) = exports::unpack(answer);
        Err(match number {
            0 => return Ok(result),
            1 => Refusal::Version,
            2 => Refusal::TooLong,
            3 => Refusal::Offset,
            4 => Refusal::TooShort,
            5 => Refusal::Room {
                needed: result as usize,
            },
            10 => Refusal::PrefixLength,
            11 => Refusal::Age,
            13 => Refusal::LsaLength,
            14 => Refusal::SharedIdentity,
            15 => Refusal::NoFreeRow,
            number => unreachable!("no export answers refusal {number} here"),
        })
    }
}

impl fmt::Display for Refusal {
    fn fmt(&self, f: &mut fmt::Formatter<'_>) -> fmt::Result {
        match self {
            Refusal::Version => f.write_str("the version is neither 2 nor 3"),
            Refusal::TooLong => f.write_str("more than 65,535 bytes of data"),
            Refusal::Offset => f.write_str("the offset is above 4,294,901,760"),
            Refusal::TooShort => f.write_str("too few bytes for an update or an LSA"),
            Refusal::Room { needed } => write!(f, "the strip takes {needed} bytes"),
            Refusal::PrefixLength => f.write_str("the length of a prefix is above 128"),
            Refusal::Age => f.write_str("an age is above 3,600"),
            Refusal::LsaLength => f.write_str("an LSA has 20 to 65,535 bytes"),
            Refusal::SharedIdentity => f.write_str("two used rows share an identity"),
            Refusal::NoFreeRow => f.write_str("more new identities than unused rows"),
        }
    }
}

impl Error for Refusal {}

/// Refusal 9: a range that does not lie in the packet.
#[derive(Clone, Copy, Debug, PartialEq, Eq, Hash)]
pub struct OutsidePacket;

impl OutsidePacket {
    /// The requirements' number.
    #[must_use]
    pub fn number(self) -> u8 {
        9
    }
}

impl fmt::Display for OutsidePacket {
    fn fmt(&self, f: &mut fmt::Formatter<'_>) -> fmt::Result {
        f.write_str("the range does not lie in the packet")
    }
}

impl Error for OutsidePacket {}

/// Bytes that are no strip, and the first place where they are none.
#[derive(Clone, Copy, Debug, PartialEq, Eq, Hash)]
#[non_exhaustive]
pub enum DamagedStrip {
    /// 7: no kind has this byte.
    Kind { place: usize },
    /// 8: the bytes end before the entry does.
    Cut { place: usize },
}

impl DamagedStrip {
    /// The requirements' number.
    #[must_use]
    pub fn number(self) -> u8 {
        match self {
            DamagedStrip::Kind { .. } => 7,
            DamagedStrip::Cut { .. } => 8,
        }
    }

    /// The place of the entry that is refused.
    #[must_use]
    pub fn place(self) -> usize {
        match self {
            DamagedStrip::Kind { place } | DamagedStrip::Cut { place } => place,
        }
    }
}

impl fmt::Display for DamagedStrip {
    fn fmt(&self, f: &mut fmt::Formatter<'_>) -> fmt::Result {
        match self {
            DamagedStrip::Kind { place } => write!(f, "no kind of entry at place {place}"),
            DamagedStrip::Cut { place } => write!(f, "the entry at place {place} is cut"),
        }
    }
}

impl Error for DamagedStrip {}
