//! The blocks that may follow an OSPF packet: the LLS data block (RFC 5613) and
//! the authentication trailer of OSPFv3 (RFC 7166).

use crate::walks::written;
use crate::{Buffer, Entries, Entry, Refusal, Strip, Version, exports};

/// A block that was found at the front of the data.
#[derive(Clone, Copy, Debug, PartialEq, Eq, Hash)]
#[must_use]
pub struct Block<'a> {
    strip: Strip<'a>,
    length: usize,
}

impl<'a> Block<'a> {
    /// Its fields.
    pub fn strip(&self) -> Strip<'a> {
        self.strip
    }

    /// How many bytes of the data it takes.
    #[must_use]
    pub fn length(&self) -> usize {
        self.length
    }
}

impl<'a> IntoIterator for Block<'a> {
    type Item = Entry<'a>;
    type IntoIter = Entries<'a>;

    #[inline]
    fn into_iter(self) -> Entries<'a> {
        self.strip.entries()
    }
}

impl<'a> IntoIterator for &Block<'a> {
    type Item = Entry<'a>;
    type IntoIter = Entries<'a>;

    #[inline]
    fn into_iter(self) -> Entries<'a> {
        self.strip.entries()
    }
}

/// Of the strip of an LLS data block. Packets of both versions have them (RFC
/// 5613), and the ids mean the same in both, so it could as well be the other.
const LLS_VERSION: Version = Version::V2;

/// The block of a reading that was lent these bytes. Where there is none, the
/// answer is 0.
fn found(version: Version, strip: &mut [u8], answer: u64) -> Result<Option<Block<'_>>, Refusal> {
    let length = exports::block_length(answer) as usize;
    let strip = written(version, strip, answer)?;
    Ok((answer != 0).then_some(Block { strip, length }))
}

/// The LLS data block at the front of `data`, which starts at `offset` of the
/// packet, written to the front of `strip`; none where no block fits there: its
/// length, the 16 bits at 2 in words of four bytes, is 0 or is beyond the data.
/// What follows the block is not looked at. Its TLVs are one range. Bytes past
/// the strip stay as they are.
///
/// OSPF of both versions has these blocks, and [`Strip::version`] of one is
/// always [`Version::V2`].
///
/// ```
/// use ospf_strip::{Refusal, lls};
///
/// // Two words, then a byte that belongs to something else.
/// let data = [0xFF, 0xF6, 0, 2, 0, 1, 0, 0, 9];
/// let mut bytes = [0; 49];
/// let block = lls(&data, 0, &mut bytes)?.expect("a block");
/// assert_eq!(block.length(), 8);
/// let names: Vec<_> = block.into_iter().filter_map(|entry| entry.name()).collect();
/// assert_eq!(names, ["lls", "checksum", "lls_data_length", "tlvs"]);
///
/// // A byte short of the block: none is there, and no room is needed.
/// assert_eq!(lls(&data[..7], 0, &mut [])?, None);
/// assert_eq!(lls(&data, 0, &mut []), Err(Refusal::Room { needed: 49 }));
/// # Ok::<(), Refusal>(())
/// ```
///
/// # Errors
///
/// [`Refusal::TooLong`], [`Refusal::Offset`] and then, if there is a block,
/// [`Refusal::Room`]. The lent bytes are then as they were.
pub fn lls<'s>(
    data: &[u8],
    offset: u64,
    strip: &'s mut [u8],
) -> Result<Option<Block<'s>>, Refusal> {
    let answer = exports::ospf_lls(data, offset, strip);
    found(LLS_VERSION, strip, answer)
}

/// The authentication trailer of OSPFv3 at the front of `data`, which starts at
/// `offset` of the packet, written to the front of `strip`; none where no
/// trailer fits there: the data are shorter than 16 bytes, or its length, the
/// 16 bits at 2, is below 16 or beyond the data. What follows the trailer is
/// not looked at, and its digest is not checked. Bytes past the strip stay as
/// they are.
///
/// ```
/// use ospf_strip::{Refusal, Value, auth_trailer};
///
/// // HMAC, 20 bytes, security association 100, sequence number 7, a digest of four bytes.
/// let data = [0, 1, 0, 20, 0, 0, 0, 100, 0, 0, 0, 0, 0, 0, 0, 7, 0xDE, 0xAD, 0xBE, 0xEF];
/// let mut bytes = [0; 79];
/// let trailer = auth_trailer(&data, 0, &mut bytes)?.expect("a trailer");
/// assert_eq!(trailer.length(), 20);
/// let number = trailer.into_iter().nth(4).unwrap();
/// assert_eq!(number.name(), Some("crypto_sequence_number"));
/// assert_eq!(number.value(), Some(Value::U64(7)));
///
/// assert_eq!(auth_trailer(&data[..19], 0, &mut [])?, None);
/// # Ok::<(), Refusal>(())
/// ```
///
/// # Errors
///
/// [`Refusal::TooLong`], [`Refusal::Offset`] and then, if there is a trailer,
/// [`Refusal::Room`]. The lent bytes are then as they were.
pub fn auth_trailer<'s>(
    data: &[u8],
    offset: u64,
    strip: &'s mut [u8],
) -> Result<Option<Block<'s>>, Refusal> {
    let answer = exports::ospf_auth_trailer(data, offset, strip);
    found(Version::V3, strip, answer)
}

impl Buffer {
    /// The LLS data block at the front of `data`, which starts at `offset` of
    /// the packet, or none; as [`lls`].
    ///
    /// # Errors
    ///
    /// [`Refusal::TooLong`] and then [`Refusal::Offset`].
    pub fn lls(&mut self, data: &[u8], offset: u64) -> Result<Option<Block<'_>>, Refusal> {
        let (strip, answer) = self.run(|strip| exports::ospf_lls(data, offset, strip));
        found(LLS_VERSION, strip, answer)
    }

    /// The authentication trailer of OSPFv3 at the front of `data`, which
    /// starts at `offset` of the packet, or none; as [`auth_trailer`].
    ///
    /// ```
    /// use ospf_strip::{Buffer, Refusal};
    ///
    /// let mut buffer = Buffer::new();
    /// let data = [0, 1, 0, 16, 0, 0, 0, 100, 0, 0, 0, 0, 0, 0, 0, 7];
    /// let trailer = buffer.auth_trailer(&data, 0)?;
    /// assert_eq!(trailer.map(|trailer| trailer.length()), Some(16));
    /// assert_eq!(buffer.lls(&data[..3], 0)?, None);
    /// # Ok::<(), Refusal>(())
    /// ```
    ///
    /// # Errors
    ///
    /// [`Refusal::TooLong`] and then [`Refusal::Offset`].
    pub fn auth_trailer(&mut self, data: &[u8], offset: u64) -> Result<Option<Block<'_>>, Refusal> {
        let (strip, answer) = self.run(|strip| exports::ospf_auth_trailer(data, offset, strip));
        found(Version::V3, strip, answer)
    }
}
