//! The book: a table of rows, each the header of an LSA that was taken, and
//! whole updates taken against it.

use std::mem::{align_of, offset_of, size_of};
use std::slice;

use crate::{Refusal, Version, exports};

/// A row of the book, in host byte order: what tells an LSA apart from others
/// (RFC 2328 12.1, and the version), and what tells its instances apart.
///
/// Version, LS type, link state id and advertising router are the LSA's
/// identity. The default is an unused row; what else an unused row holds is
/// never looked at.
#[derive(Clone, Copy, Debug, Default, PartialEq, Eq, Hash)]
#[repr(C)]
pub struct Row {
    /// The version of OSPF, 2 or 3.
    pub version: u8,
    /// The mark: 0 in an unused row, anything else in a used one; an update
    /// writes 1.
    pub used: u8,
    /// The LS type: one byte in version 2, all 16 bits in version 3.
    pub ls_type: u16,
    pub link_state_id: u32,
    pub advertising_router: u32,
    /// The LS sequence number, with its sign as the highest bit.
    pub sequence: u32,
    /// The LS checksum.
    pub checksum: u16,
    /// The LS age when the row was written.
    pub age: u16,
}

// The library's row, and that of include/ospf.h.
const _: () = assert!(size_of::<Row>() == 20 && align_of::<Row>() == 4);
const _: () = assert!(offset_of!(Row, version) == 0);
const _: () = assert!(offset_of!(Row, used) == 1);
const _: () = assert!(offset_of!(Row, ls_type) == 2);
const _: () = assert!(offset_of!(Row, link_state_id) == 4);
const _: () = assert!(offset_of!(Row, advertising_router) == 8);
const _: () = assert!(offset_of!(Row, sequence) == 12);
const _: () = assert!(offset_of!(Row, checksum) == 16);
const _: () = assert!(offset_of!(Row, age) == 18);

impl Row {
    /// Whether the mark is not 0.
    #[inline]
    #[must_use]
    pub fn is_used(&self) -> bool {
        self.used != 0
    }
}

/// What an update changed.
#[derive(Clone, Copy, Debug, Default, PartialEq, Eq, Hash)]
pub struct Counts {
    /// How often a used row was replaced by a newer instance: once for each of
    /// the LSAs that did so, also in a row that the same update added.
    pub replaced: usize,
    /// Rows that were unused: those of new LSAs.
    pub added: usize,
}

/// Takes the LSAs of the update body `data`, at most `count` of them, one after
/// another against `rows`. The body starts with its own count of four bytes, at
/// `offset` of the packet, which is only tested.
///
/// An LSA whose identity a used row has replaces that row if it is newer (as
/// [`newness`](crate::newness) says) and leaves it if it is the same or older;
/// any other LSA takes the first unused row.
///
/// ```
/// use ospf_strip::{Counts, Refusal, Row, Version, take_update};
///
/// let mut body = [
///     0, 0, 0, 1, 0, 1, 2, 1, 10, 0, 0, 1, 10, 0, 0, 1, 0x80, 0, 0, 1, 0x12, 0x34, 0, 20,
/// ];
/// let mut rows = [Row::default(); 2];
/// let counts = take_update(Version::V2, &body, 1, 0, &mut rows)?;
/// assert_eq!(counts, Counts { replaced: 0, added: 1 });
/// assert_eq!((rows[0].sequence, rows[0].is_used()), (0x8000_0001, true));
///
/// // Again it is the same instance, and with the next sequence number a newer one.
/// let counts = take_update(Version::V2, &body, 1, 0, &mut rows)?;
/// assert_eq!(counts, Counts { replaced: 0, added: 0 });
/// body[19] = 2;
/// let counts = take_update(Version::V2, &body, 1, 0, &mut rows)?;
/// assert_eq!(counts, Counts { replaced: 1, added: 0 });
/// assert!(!rows[1].is_used());
///
/// let refused = take_update(Version::V2, &body, 1, 0, &mut []);
/// assert_eq!(refused, Err(Refusal::NoFreeRow));
/// # Ok::<(), Refusal>(())
/// ```
///
/// # Errors
///
/// [`Refusal::TooLong`], [`Refusal::Offset`] and [`Refusal::TooShort`], as of
/// [`lsu_lsas`](crate::lsu_lsas); then [`Refusal::Age`], of one of the LSAs or
/// of a used row; [`Refusal::SharedIdentity`], which rows that only updates
/// have written never give; and [`Refusal::NoFreeRow`]. The rows are then as
/// they were.
pub fn take_update(
    version: Version,
    data: &[u8],
    count: u32,
    offset: u64,
    rows: &mut [Row],
) -> Result<Counts, Refusal> {
    let answer = exports::ospf_book_update(version.number(), data, count, offset, rows);
    Refusal::unless(answer).map(|replaced| Counts {
        replaced: replaced as usize,
        added: exports::additions(answer) as usize,
    })
}

/// Rows that updates are taken against. It begins without rows and gets more
/// where an update needs them. A row keeps its place, and is never unused again.
///
/// ```
/// use ospf_strip::{Book, Refusal, Version};
///
/// let body = [
///     0, 0, 0, 2, 0, 1, 0x20, 1, 0, 0, 0, 7, 10, 0, 0, 1, 0x80, 0, 0, 1, 0x12, 0x34, 0, 20, //
///     0, 1, 0x20, 2, 0, 0, 0, 7, 10, 0, 0, 1, 0x80, 0, 0, 1, 0x56, 0x78, 0, 20,
/// ];
/// let mut book = Book::new();
/// assert_eq!(book.take_update(Version::V3, &body, 2, 0)?.added, 2);
/// let types: Vec<u16> = book.iter().map(|row| row.ls_type).collect();
/// assert_eq!(types, [0x2001, 0x2002]);
/// # Ok::<(), Refusal>(())
/// ```
#[derive(Clone, Debug, Default)]
pub struct Book {
    rows: Vec<Row>,
}

impl Book {
    /// A book without rows.
    #[must_use]
    pub fn new() -> Book {
        Book::default()
    }

    /// Takes an update, as [`take_update`] does.
    ///
    /// # Errors
    ///
    /// [`Refusal::TooLong`], [`Refusal::Offset`], [`Refusal::TooShort`] and then
    /// [`Refusal::Age`], of one of the LSAs. The rows are then as they were.
    pub fn take_update(
        &mut self,
        version: Version,
        data: &[u8],
        count: u32,
        offset: u64,
    ) -> Result<Counts, Refusal> {
        let mut taken = take_update(version, data, count, offset, &mut self.rows);
        if taken == Err(Refusal::NoFreeRow) {
            // With a row for each LSA that the data can hold it has enough.
            let most = (data.len() / LEAST_LSA).min(count as usize);
            self.rows.resize(self.rows.len() + most, Row::default());
            taken = take_update(version, data, count, offset, &mut self.rows);
        }
        taken
    }

    /// All rows, used or not, each at its place.
    #[must_use]
    pub fn rows(&self) -> &[Row] {
        &self.rows
    }

    /// The used rows, in the order in which they were added.
    pub fn iter(&self) -> Rows<'_> {
        self.into_iter()
    }
}

/// The fewest bytes of an LSA: its header.
const LEAST_LSA: usize = 20;

/// The used rows of a [`Book`].
#[derive(Clone, Debug)]
pub struct Rows<'a>(slice::Iter<'a, Row>);

impl<'a> Iterator for Rows<'a> {
    type Item = &'a Row;

    #[inline]
    fn next(&mut self) -> Option<&'a Row> {
        self.0.find(|row| row.is_used())
    }
}

impl<'a> IntoIterator for &'a Book {
    type Item = &'a Row;
    type IntoIter = Rows<'a>;

    fn into_iter(self) -> Rows<'a> {
        Rows(self.rows.iter())
    }
}
