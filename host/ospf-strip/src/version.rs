//! The versions of OSPF.

use std::fmt;

use crate::Refusal;

/// A version of OSPF. A packet's first byte has its number:
///
/// ```
/// use ospf_strip::{Refusal, Version};
///
/// assert_eq!(Version::try_from(2), Ok(Version::V2));
/// assert_eq!(Version::try_from(4), Err(Refusal::Version));
/// ```
#[derive(Clone, Copy, Debug, PartialEq, Eq, PartialOrd, Ord, Hash)]
#[repr(u8)]
pub enum Version {
    /// OSPFv2, RFC 2328.
    V2 = 2,
    /// OSPFv3, RFC 5340.
    V3 = 3,
}

impl Version {
    /// The version's number.
    #[inline]
    #[must_use]
    pub fn number(self) -> u8 {
        self as u8
    }
}

impl TryFrom<u8> for Version {
    type Error = Refusal;

    fn try_from(number: u8) -> Result<Version, Refusal> {
        match number {
            2 => Ok(Version::V2),
            3 => Ok(Version::V3),
            _ => Err(Refusal::Version),
        }
    }
}

impl From<Version> for u8 {
    fn from(version: Version) -> u8 {
        version.number()
    }
}

impl fmt::Display for Version {
    fn fmt(&self, f: &mut fmt::Formatter<'_>) -> fmt::Result {
        self.number().fmt(f)
    }
}
