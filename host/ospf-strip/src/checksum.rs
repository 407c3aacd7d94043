//! The LS checksum of an LSA: whether it is right, and its making.

use crate::{Refusal, exports};

/// Whether the LS checksum of an LSA is right (RFC 2328 12.1.7). It covers all
/// bytes given but the first two, the LS age, whatever length the LSA declares.
///
/// In an LSA whose checksum is right, every change of one byte after the age
/// is found, but a 0 for a 255 or a 255 for a 0; and of these the one that
/// leaves the checksum zero is found, too.
///
/// ```
/// use ospf_strip::{Refusal, checksum_is_good, make_checksum};
///
/// let mut lsa = [0, 1, 2, 1, 10, 0, 0, 1, 10, 0, 0, 1, 0x80, 0, 0, 1, 0, 0, 0, 20];
/// make_checksum(&mut lsa)?;
/// assert!(checksum_is_good(&lsa)?);
/// lsa[0] += 1; // the age is not covered
/// assert!(checksum_is_good(&lsa)?);
/// lsa[4] += 1;
/// assert!(!checksum_is_good(&lsa)?);
/// assert_eq!(checksum_is_good(&lsa[..19]), Err(Refusal::LsaLength));
/// # Ok::<(), Refusal>(())
/// ```
///
/// # Errors
///
/// [`Refusal::LsaLength`], fewer than 20 bytes or more than 65,535.
pub fn checksum_is_good(lsa: &[u8]) -> Result<bool, Refusal> {
    let answer = exports::ospf_lsa_checksum_check(lsa);
    Refusal::unless(answer).map(|result| result == 1)
}

/// Makes the LS checksum of an LSA, writes it to bytes 16 and 17, and gives
/// it back. Neither of the two bytes is ever zero, and no other two make the
/// LSA good. What was there before does not matter.
///
/// ```
/// use ospf_strip::{Refusal, make_checksum};
///
/// let mut lsa = [0, 1, 2, 1, 10, 0, 0, 1, 10, 0, 0, 1, 0x80, 0, 0, 1, 0, 0, 0, 20];
/// let checksum = make_checksum(&mut lsa)?;
/// assert_eq!(checksum.to_be_bytes(), lsa[16..18]);
/// assert_eq!(make_checksum(&mut [0; 19]), Err(Refusal::LsaLength));
/// # Ok::<(), Refusal>(())
/// ```
///
/// # Errors
///
/// [`Refusal::LsaLength`], fewer than 20 bytes or more than 65,535; then
/// nothing is written.
pub fn make_checksum(lsa: &mut [u8]) -> Result<u16, Refusal> {
    let answer = exports::ospf_lsa_checksum_make(lsa);
    Refusal::unless(answer).map(|checksum| checksum as u16)
}
