//! The three walks, into bytes that the caller lends or into a buffer.

use crate::{Refusal, Strip, Version, exports};

/// The strip of a call that was lent these bytes.
pub(crate) fn written(
    version: Version,
    strip: &mut [u8],
    answer: u64,
) -> Result<Strip<'_>, Refusal> {
    let length = Refusal::unless(answer)? as usize;
    Ok(Strip::of_library(version, &strip[..length]))
}

/// The headers in `data`, which starts at `offset` of the packet, written to
/// the front of `strip`. Bytes past the strip stay as they are.
///
/// ```
/// use ospf_strip::{Refusal, Version, lsa_headers};
///
/// // No header: an outer array that is empty.
/// let mut bytes = [0; 15];
/// assert_eq!(lsa_headers(Version::V2, &[], 0, &mut bytes)?.records(), 0);
/// let refusal = lsa_headers(Version::V2, &[], 0, &mut bytes[..14]).unwrap_err();
/// assert_eq!(refusal, Refusal::Room { needed: 15 });
/// # Ok::<(), Refusal>(())
/// ```
///
/// # Errors
///
/// [`Refusal::TooLong`], [`Refusal::Offset`] and then [`Refusal::Room`], which
/// says how many bytes are needed. The lent bytes are then as they were.
pub fn lsa_headers<'s>(
    version: Version,
    data: &[u8],
    offset: u64,
    strip: &'s mut [u8],
) -> Result<Strip<'s>, Refusal> {
    let answer = exports::ospf_lsa_headers(version.number(), data, offset, strip);
    written(version, strip, answer)
}

/// The LSAs of the update body `data`, at most `count` of them, written to
/// the front of `strip`. The body starts with its own count of four bytes, at
/// `offset` of the packet. Bytes past the strip stay as they are.
///
/// # Errors
///
/// [`Refusal::TooLong`], [`Refusal::Offset`], [`Refusal::TooShort`] and then
/// [`Refusal::Room`]. The lent bytes are then as they were.
pub fn lsu_lsas<'s>(
    version: Version,
    data: &[u8],
    count: u32,
    offset: u64,
    strip: &'s mut [u8],
) -> Result<Strip<'s>, Refusal> {
    let answer = exports::ospf_lsu_lsas(version.number(), data, count, offset, strip);
    written(version, strip, answer)
}

/// The one LSA that is `data`, which starts at `offset` of the packet, written
/// to the front of `strip`. Bytes past the strip stay as they are.
///
/// # Errors
///
/// [`Refusal::TooLong`], [`Refusal::Offset`], [`Refusal::TooShort`] and then
/// [`Refusal::Room`]. The lent bytes are then as they were.
pub fn lsa<'s>(
    version: Version,
    data: &[u8],
    offset: u64,
    strip: &'s mut [u8],
) -> Result<Strip<'s>, Refusal> {
    let answer = exports::ospf_lsa(version.number(), data, offset, strip);
    written(version, strip, answer)
}

/// A buffer for strips. It grows to what a call needs and is used again.
#[derive(Clone, Debug, Default)]
pub struct Buffer {
    bytes: Vec<u8>,
}

impl Buffer {
    /// A buffer of no length.
    #[must_use]
    pub fn new() -> Buffer {
        Buffer::default()
    }

    /// The headers in `data`, which starts at `offset` of the packet.
    ///
    /// # Errors
    ///
    /// [`Refusal::TooLong`] and then [`Refusal::Offset`].
    pub fn lsa_headers(
        &mut self,
        version: Version,
        data: &[u8],
        offset: u64,
    ) -> Result<Strip<'_>, Refusal> {
        let number = version.number();
        let (strip, answer) =
            self.run(|strip| exports::ospf_lsa_headers(number, data, offset, strip));
        written(version, strip, answer)
    }

    /// The LSAs of the update body `data`, at most `count` of them. The body
    /// starts with its own count of four bytes, at `offset` of the packet.
    ///
    /// # Errors
    ///
    /// [`Refusal::TooLong`], [`Refusal::Offset`] and then
    /// [`Refusal::TooShort`], for fewer than 4 bytes.
    pub fn lsu_lsas(
        &mut self,
        version: Version,
        data: &[u8],
        count: u32,
        offset: u64,
    ) -> Result<Strip<'_>, Refusal> {
        let number = version.number();
        let (strip, answer) =
            self.run(|strip| exports::ospf_lsu_lsas(number, data, count, offset, strip));
        written(version, strip, answer)
    }

    /// The one LSA that is `data`, which starts at `offset` of the packet.
    ///
    /// # Errors
    ///
    /// [`Refusal::TooLong`], [`Refusal::Offset`] and then
    /// [`Refusal::TooShort`], for fewer than 20 bytes.
    pub fn lsa(
        &mut self,
        version: Version,
        data: &[u8],
        offset: u64,
    ) -> Result<Strip<'_>, Refusal> {
        let number = version.number();
        let (strip, answer) = self.run(|strip| exports::ospf_lsa(number, data, offset, strip));
        written(version, strip, answer)
    }

    /// Makes a call, and once more if it says that the buffer is too short:
    /// the bytes it was lent, and its answer.
    pub(crate) fn run(&mut self, call: impl Fn(&mut [u8]) -> u64) -> (&mut [u8], u64) {
        let mut answer = call(&mut self.bytes);
        if let Err(Refusal::Room { needed }) = Refusal::unless(answer) {
            self.bytes.resize(needed, 0);
            answer = call(&mut self.bytes);
        }
        (&mut self.bytes, answer)
    }
}
