//! The boundary to the proved library: its exports as they are, with slices
//! for pointers, and nothing else.
//!
//! Each answers one number of 64 bits: the result in the low 32, the number
//! of a refusal, or 0, in the next 8, and in the upper 24 the length of a
//! block that was found, or how many rows an update added, else 0.
//! include/ospf.h says what each result is. Nothing here is refused by a panic.
//! Inlined, a call goes to the library at once.

use crate::Row;

/// The exports of `libospf.a`, as include/ospf.h declares them: a slice goes
/// over as a pointer and a length.
///
/// They are proved to end, to read only the bytes of the slices, to write
/// only to those of `strip` and of `rows` and to the LSA whose checksum is
/// made, and to keep no pointer. They neither unwind nor allocate, and have no
/// state. What they ask of their caller is what a slice's reference is: a
/// pointer that is not null and is aligned, for that many bytes or rows that
/// stay as they are for the call; what is written to overlaps nothing else.
mod library {
    use crate::Row;

    unsafe extern "C" {
        pub unsafe fn ospf_lsa_headers(
            version: u8,
            data: *const u8,
            data_len: usize,
            offset: u64,
            strip: *mut u8,
            strip_len: usize,
        ) -> u64;
        pub unsafe fn ospf_lsu_lsas(
            version: u8,
            data: *const u8,
            data_len: usize,
            count: u32,
            offset: u64,
            strip: *mut u8,
            strip_len: usize,
        ) -> u64;
        pub unsafe fn ospf_lsa(
            version: u8,
            data: *const u8,
            data_len: usize,
            offset: u64,
            strip: *mut u8,
            strip_len: usize,
        ) -> u64;
        pub unsafe fn ospf_lls(
            data: *const u8,
            data_len: usize,
            offset: u64,
            strip: *mut u8,
            strip_len: usize,
        ) -> u64;
        pub unsafe fn ospf_auth_trailer(
            data: *const u8,
            data_len: usize,
            offset: u64,
            strip: *mut u8,
            strip_len: usize,
        ) -> u64;
        pub unsafe fn ospf_newness(
            version: u8,
            first: *const u8,
            first_len: usize,
            second: *const u8,
            second_len: usize,
        ) -> u64;
        pub unsafe fn ospf_prefix_compare(
            first_length: u8,
            first: *const u8,
            first_len: usize,
            second_length: u8,
            second: *const u8,
            second_len: usize,
        ) -> u64;
        pub unsafe fn ospf_strip_step(strip: *const u8, strip_len: usize, place: usize) -> u64;
        pub unsafe fn ospf_lsa_checksum_check(lsa: *const u8, lsa_len: usize) -> u64;
        pub unsafe fn ospf_lsa_checksum_make(lsa: *mut u8, lsa_len: usize) -> u64;
        pub unsafe fn ospf_book_update(
            version: u8,
            data: *const u8,
            data_len: usize,
            count: u32,
            offset: u64,
            rows: *mut Row,
            rows_len: usize,
        ) -> u64;
    }
}

/// The number of a refusal, or 0, and the result of an answer.
#[inline]
#[must_use]
pub fn unpack(answer: u64) -> (u8, u32) {
    ((answer >> 32) as u8, answer as u32)
}

/// The length of the block that `ospf_lls` or `ospf_auth_trailer` found, from
/// its answer; 0 where it found none.
#[inline]
#[must_use]
pub fn block_length(answer: u64) -> u32 {
    (answer >> 40) as u32
}

/// How many rows `ospf_book_update` added, from its answer; how many it
/// replaced is the result.
#[inline]
#[must_use]
pub fn additions(answer: u64) -> u32 {
    (answer >> 40) as u32
}

/// Walks a list of LSA headers.
#[inline]
#[must_use]
pub fn ospf_lsa_headers(version: u8, data: &[u8], offset: u64, strip: &mut [u8]) -> u64 {
    let (from, to) = (data.as_ptr(), strip.as_mut_ptr());
    // SAFETY: both pointers are those of references to slices of these
    // lengths, which live for the call: so neither is null, `data` is not
    // written to meanwhile, and `strip`, borrowed alone, overlaps nothing.
    // The export reads and writes those bytes and no others, and keeps no
    // pointer.
    unsafe { library::ospf_lsa_headers(version, from, data.len(), offset, to, strip.len()) }
}

/// Walks the body of a Link State Update, for at most `count` LSAs.
#[inline]
#[must_use]
pub fn ospf_lsu_lsas(version: u8, data: &[u8], count: u32, offset: u64, strip: &mut [u8]) -> u64 {
    let (from, to) = (data.as_ptr(), strip.as_mut_ptr());
    // SAFETY: as in `ospf_lsa_headers`.
    unsafe { library::ospf_lsu_lsas(version, from, data.len(), count, offset, to, strip.len()) }
}

/// Walks a single LSA.
#[inline]
#[must_use]
pub fn ospf_lsa(version: u8, data: &[u8], offset: u64, strip: &mut [u8]) -> u64 {
    let (from, to) = (data.as_ptr(), strip.as_mut_ptr());
    // SAFETY: as in `ospf_lsa_headers`.
    unsafe { library::ospf_lsa(version, from, data.len(), offset, to, strip.len()) }
}

/// Reads the LLS data block at the front of `data`, if one is there.
#[inline]
#[must_use]
pub fn ospf_lls(data: &[u8], offset: u64, strip: &mut [u8]) -> u64 {
    let (from, to) = (data.as_ptr(), strip.as_mut_ptr());
    // SAFETY: as in `ospf_lsa_headers`.
    unsafe { library::ospf_lls(from, data.len(), offset, to, strip.len()) }
}

/// Reads the OSPFv3 authentication trailer at the front of `data`, if one is
/// there.
#[inline]
#[must_use]
pub fn ospf_auth_trailer(data: &[u8], offset: u64, strip: &mut [u8]) -> u64 {
    let (from, to) = (data.as_ptr(), strip.as_mut_ptr());
    // SAFETY: as in `ospf_lsa_headers`.
    unsafe { library::ospf_auth_trailer(from, data.len(), offset, to, strip.len()) }
}

/// Which of two LSAs is newer.
#[inline]
#[must_use]
pub fn ospf_newness(version: u8, first: &[u8], second: &[u8]) -> u64 {
    let (a, b) = (first.as_ptr(), second.as_ptr());
    // SAFETY: both pointers are those of references to slices of these
    // lengths, which live for the call: so neither is null, and nothing is
    // written to them meanwhile. The export reads those bytes and no others,
    // which may be the same ones, and keeps no pointer.
    unsafe { library::ospf_newness(version, a, first.len(), b, second.len()) }
}

/// Whether two prefixes are the same.
#[inline]
#[must_use]
pub fn ospf_prefix_compare(
    first_length: u8,
    first: &[u8],
    second_length: u8,
    second: &[u8],
) -> u64 {
    let (a, b) = (first.as_ptr(), second.as_ptr());
    let (n, m) = (first.len(), second.len());
    // SAFETY: as in `ospf_newness`.
    unsafe { library::ospf_prefix_compare(first_length, a, n, second_length, b, m) }
}

/// The step of the strip reader: how long the entry at a place is.
#[inline]
#[must_use]
pub fn ospf_strip_step(strip: &[u8], place: usize) -> u64 {
    // SAFETY: as in `ospf_newness`, of one slice. The place may be any number.
    unsafe { library::ospf_strip_step(strip.as_ptr(), strip.len(), place) }
}

/// Whether the LS checksum of an LSA is right.
#[inline]
#[must_use]
pub fn ospf_lsa_checksum_check(lsa: &[u8]) -> u64 {
    // SAFETY: as in `ospf_newness`, of one slice.
    unsafe { library::ospf_lsa_checksum_check(lsa.as_ptr(), lsa.len()) }
}

/// Makes the LS checksum of an LSA.
#[inline]
#[must_use]
pub fn ospf_lsa_checksum_make(lsa: &mut [u8]) -> u64 {
    // SAFETY: the pointer is that of a reference to a slice of this length,
    // borrowed alone for the call: so it is not null, and overlaps nothing.
    // The export reads and writes those bytes and no others, and keeps no
    // pointer.
    unsafe { library::ospf_lsa_checksum_make(lsa.as_mut_ptr(), lsa.len()) }
}

/// Takes the LSAs of an update's body, at most `count`, against a table of rows.
#[inline]
#[must_use]
pub fn ospf_book_update(
    version: u8,
    data: &[u8],
    count: u32,
    offset: u64,
    rows: &mut [Row],
) -> u64 {
    let (from, to) = (data.as_ptr(), rows.as_mut_ptr());
    // SAFETY: both pointers are those of references to slices of these
    // lengths, which live for the call: so neither is null, `to` is aligned,
    // `data` is not written to meanwhile, and `rows`, borrowed alone, overlaps
    // nothing. A `Row` lies as the library's row does, and its fields may hold
    // any bits. The export reads and writes those bytes and rows and no
    // others, and keeps no pointer.
    unsafe { library::ospf_book_update(version, from, data.len(), count, offset, to, rows.len()) }
}
