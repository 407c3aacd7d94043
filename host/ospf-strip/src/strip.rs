//! The strip of one call.

use crate::{DamagedStrip, Entries, Entry, Version, exports};

/// The id of the outer array of a header list or an update.
const OUTER: u8 = 114;

/// A strip: whole entries from end to end, as a walk wrote them or the reading
/// of a [`Block`](crate::Block).
#[derive(Clone, Copy, Debug, PartialEq, Eq, Hash)]
#[must_use]
pub struct Strip<'a> {
    version: Version,
    bytes: &'a [u8],
}

impl<'a> Strip<'a> {
    /// The bytes of a strip that the library wrote.
    pub(crate) fn of_library(version: Version, bytes: &'a [u8]) -> Strip<'a> {
        Strip { version, bytes }
    }

    /// A strip that comes from elsewhere, such as a file. The bytes are
    /// tested to be whole entries; that containers match, and that they have as
    /// many entries as they say, is not tested.
    ///
    /// ```
    /// use ospf_strip::{DamagedStrip, Strip, Version};
    ///
    /// let strip = Strip::from_bytes(Version::V2, &[2, 2])?;
    /// assert_eq!(strip.entries().count(), 2);
    /// let damaged = Strip::from_bytes(Version::V2, &[2, 11]).unwrap_err();
    /// assert_eq!(damaged, DamagedStrip::Kind { place: 1 });
    /// # Ok::<(), DamagedStrip>(())
    /// ```
    ///
    /// # Errors
    ///
    /// The place of the first entry whose kind is unknown, or that is cut.
    pub fn from_bytes(version: Version, bytes: &'a [u8]) -> Result<Strip<'a>, DamagedStrip> {
        // By the proved step, so that it has the word on what is an entry.
        let mut place = 0;
        loop {
            match exports::unpack(exports::ospf_strip_step(bytes, place)) {
                (0, 0) => return Ok(Strip { version, bytes }),
                (0, length) => place += length as usize,
                (7, _) => return Err(DamagedStrip::Kind { place }),
                _ => return Err(DamagedStrip::Cut { place }),
            }
        }
    }

    /// The version whose fields these are. Those of a block have the same ids
    /// in both; its strip is of version 3 if it is an authentication trailer's,
    /// and of version 2 if it is an LLS data block's, whatever the packet's is.
    #[must_use]
    pub fn version(&self) -> Version {
        self.version
    }

    /// The strip as it was written.
    #[must_use]
    pub fn bytes(&self) -> &'a [u8] {
        self.bytes
    }

    /// The entries, in order.
    #[inline]
    pub fn entries(&self) -> Entries<'a> {
        Entries::of(self.version, self.bytes)
    }

    /// How many records the walk accepted: the headers of a header list, the
    /// LSAs of an update, and 1 for a single LSA, as for a block. The outer
    /// array has records alone, and says how many they are.
    #[must_use]
    pub fn records(&self) -> usize {
        let first = self.entries().next();
        let outer = first.filter(|entry| entry.id() == Some(OUTER));
        let count = outer.and_then(|array| array.count());
        count.map_or(1, |count| count as usize)
    }

    /// How many bytes are left after the last record, or, of a single LSA,
    /// after its last link or prefix or field; 0 for a block. Goes through the
    /// strip.
    #[must_use]
    pub fn tail(&self) -> usize {
        let unparsed = match self.version {
            Version::V2 => 25,
            Version::V3 => 33,
        };
        let last = self.entries().last();
        let tail = last.filter(|entry| entry.id() == Some(unparsed));
        let range = tail.and_then(|entry| entry.range());
        range.map_or(0, |range| range.len())
    }
}

impl<'a> IntoIterator for Strip<'a> {
    type Item = Entry<'a>;
    type IntoIter = Entries<'a>;

    #[inline]
    fn into_iter(self) -> Entries<'a> {
        self.entries()
    }
}

impl<'a> IntoIterator for &Strip<'a> {
    type Item = Entry<'a>;
    type IntoIter = Entries<'a>;

    #[inline]
    fn into_iter(self) -> Entries<'a> {
        self.entries()
    }
}
