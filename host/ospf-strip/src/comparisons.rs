//! Which of two LSAs is newer, and whether two prefixes are the same.

use crate::{Refusal, Version, exports};

/// Which of two LSAs is newer.
#[derive(Clone, Copy, Debug, PartialEq, Eq, Hash)]
pub enum Newness {
    /// Neither is.
    Same,
    /// The first one.
    First,
    /// The second one.
    Second,
}

/// Which of two instances of an LSA is newer (RFC 2328 13.1), by the headers
/// at their fronts; what comes after them is not looked at.
///
/// ```
/// use ospf_strip::{Newness, Refusal, Version, newness};
///
/// let mut old = [0; 20];
/// old[12..16].copy_from_slice(&0x8000_0001_u32.to_be_bytes());
/// let mut new = old;
/// new[15] = 2; // the larger LS sequence number
/// assert_eq!(newness(Version::V2, &old, &new)?, Newness::Second);
/// assert_eq!(newness(Version::V2, &old, &old)?, Newness::Same);
/// assert_eq!(newness(Version::V2, &old, &new[..19]), Err(Refusal::TooShort));
/// # Ok::<(), Refusal>(())
/// ```
///
/// # Errors
///
/// [`Refusal::TooShort`], either has fewer than 20 bytes; then
/// [`Refusal::Age`], either LS age is above 3,600.
pub fn newness(version: Version, first: &[u8], second: &[u8]) -> Result<Newness, Refusal> {
    let answer = exports::ospf_newness(version.number(), first, second);
    Refusal::unless(answer).map(|result| match result {
        0 => Newness::Same,
        1 => Newness::First,
        _ => Newness::Second,
    })
}

/// Whether two prefixes are the same, each a length in bits and octets as
/// they lie in a packet: the lengths agree, and so do the first bits, as many
/// as the length says. The bits past them are padding (RFC 5340 A.4.1) and may
/// hold anything. Of the octets, zeros follow to 16, and more than 16 are cut.
///
/// ```
/// use ospf_strip::{Refusal, same_prefix};
///
/// let octets = [0x20, 0x01, 0x0D, 0xB8];
/// let junk = [0x20, 0x01, 0x0D, 0xBF]; // differs in its last three bits
/// assert!(same_prefix(29, &octets, 29, &junk)?);
/// assert!(!same_prefix(30, &octets, 30, &junk)?);
/// assert!(!same_prefix(29, &octets, 28, &octets)?);
/// assert_eq!(same_prefix(29, &octets, 129, &[]), Err(Refusal::PrefixLength));
/// # Ok::<(), Refusal>(())
/// ```
///
/// # Errors
///
/// [`Refusal::PrefixLength`], either length is above 128.
pub fn same_prefix(
    first_length: u8,
    first: &[u8],
    second_length: u8,
    second: &[u8],
) -> Result<bool, Refusal> {
    let answer = exports::ospf_prefix_compare(first_length, first, second_length, second);
    Refusal::unless(answer).map(|result| result == 1)
}
