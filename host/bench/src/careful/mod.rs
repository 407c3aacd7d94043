//! The strip of the requirements by hand-written Rust: measured, then written, with
//! no allocation and no unsafe code. An entry's bytes are taken off the lent
//! strip by one test, a record's or link's off the data by one. [`blocks`] has the
//! readings of blocks, [`checksum`] the LS checksum, [`prefix`] the comparison of
//! prefixes, [`book`] updates taken against rows.

pub mod blocks;
pub mod book;
pub mod checksum;
pub mod prefix;
mod v2;
mod v3;
mod writer;

use writer::{Writer, is_unreachable};

const HEADER: u8 = 112;
const LSA: u8 = 113;
const OUTER: u8 = 114;

/// The header that begins every LSA.
type Header = [u8; 20];

/// What an array or object takes beside its contents.
const CONTAINER: usize = 15;
/// A range of bytes.
const BYTES: usize = 10;

/// Walks a list of LSA headers.
pub fn lsa_headers(version: u8, data: &[u8], offset: u64, strip: &mut [u8]) -> u64 {
    let number = refusal(version, data, offset, 0);
    if number != 0 {
        return packed(number, 0);
    }
    let (headers, tail) = data.as_chunks::<20>();
    let fields: usize = match version {
        2 => headers.iter().map(v2::measure_header).sum(),
        _ => headers.len() * v3::HEADER_LENGTH,
    };
    let length = CONTAINER + headers.len() * CONTAINER + fields + measure_rest(tail);
    let Some(strip) = strip.get_mut(..length) else {
        return packed(5, length);
    };
    let o = offset as u32;
    let count = headers.len() as u32;
    let mut w = Writer::new(strip).open(OUTER, o, 20 * count, count);
    let mut at = o;
    for header in headers {
        w = match version {
            2 => {
                let w = w.open(HEADER, at, 20, v2::header_entries(header));
                v2::write_header(w, header, at)
            }
            _ => v3::write_header(w.open(HEADER, at, 20, v3::HEADER_ENTRIES), header, at),
        };
        w = w.close();
        at += 20;
    }
    write_rest(w.close(), unparsed(version), tail, at);
    packed(0, length)
}

/// Walks the body of a Link State Update, for at most `count` LSAs.
pub fn lsu_lsas(version: u8, data: &[u8], count: u32, offset: u64, strip: &mut [u8]) -> u64 {
    let number = refusal(version, data, offset, 4);
    if number != 0 {
        return packed(number, 0);
    }
    let mut length = CONTAINER;
    let mut records = 0;
    let mut rest = &data[4..];
    for _ in 0..count {
        let Some((record, after)) = record(rest) else {
            break;
        };
        length += CONTAINER + measure(version, record);
        records += 1;
        rest = after;
    }
    length += measure_rest(rest);
    let Some(strip) = strip.get_mut(..length) else {
        return packed(5, length);
    };
    let o = offset as u32;
    let end = data.len() - rest.len();
    let w = write_lsas(Writer::new(strip), version, &data[4..end], records, o + 4);
    write_rest(w, unparsed(version), rest, o + end as u32);
    packed(0, length)
}

/// Walks a single LSA.
pub fn lsa(version: u8, data: &[u8], offset: u64, strip: &mut [u8]) -> u64 {
    let number = refusal(version, data, offset, 20);
    if number != 0 {
        return packed(number, 0);
    }
    let Some(lsa) = split(data) else {
        return packed(4, 0);
    };
    let length = measure(version, lsa);
    let Some(strip) = strip.get_mut(..length) else {
        return packed(5, length);
    };
    write(Writer::new(strip), version, lsa, offset as u32);
    packed(0, length)
}

/// Refusals 1 to 4 in their order, or 0.
fn refusal(version: u8, data: &[u8], offset: u64, least: usize) -> u8 {
    if !matches!(version, 2 | 3) {
        return 1;
    }
    match out_of_bounds(data, offset) {
        0 if data.len() < least => 4,
        number => number,
    }
}

/// Refusals 2 and 3 in their order, or 0.
#[inline]
fn out_of_bounds(data: &[u8], offset: u64) -> u8 {
    if data.len() > 65_535 {
        2
    } else if offset > 4_294_901_760 {
        3
    } else {
        0
    }
}

fn packed(number: u8, length: usize) -> u64 {
    u64::from(number) << 32 | length as u64
}

fn unparsed(version: u8) -> u8 {
    if version == 2 { 25 } else { 33 }
}

/// An LSA as its header and its body.
type Lsa<'a> = (&'a Header, &'a [u8]);

#[inline]
fn split(lsa: &[u8]) -> Option<Lsa<'_>> {
    lsa.split_first_chunk()
}

/// The record at the front of `rest` by its declared length, and what follows.
#[inline]
fn record(rest: &[u8]) -> Option<(Lsa<'_>, &[u8])> {
    let header: &Header = rest.first_chunk()?;
    let length = u16::from_be_bytes([header[18], header[19]]);
    let (record, after) = rest.split_at_checked(length.into())?;
    Some((split(record)?, after))
}

fn measure(version: u8, lsa: Lsa<'_>) -> usize {
    match version {
        2 => v2::measure(lsa),
        _ => v3::measure(lsa),
    }
}

fn write<'a>(w: Writer<'a>, version: u8, lsa: Lsa<'_>, o: u32) -> (Writer<'a>, u32) {
    match version {
        2 => v2::write(w, lsa, o),
        _ => v3::write(w, lsa, o),
    }
}

/// The outer array of the records that `data` is made of; there are so many.
fn write_lsas<'a>(w: Writer<'a>, version: u8, data: &[u8], records: u32, o: u32) -> Writer<'a> {
    let mut w = w.open(OUTER, o, data.len() as u32, records);
    let mut rest = data;
    let mut at = o;
    while let Some((record, after)) = record(rest) {
        let length = (rest.len() - after.len()) as u32;
        let (object, inside) = w.open_later();
        let (inside, entries) = write(inside, version, record, at);
        object.open(LSA, at, length, entries);
        w = inside.close();
        rest = after;
        at += length;
    }
    w.close()
}

/// Bytes that are left over, if there are any.
#[inline]
fn measure_rest(rest: &[u8]) -> usize {
    if rest.is_empty() { 0 } else { BYTES }
}

#[inline]
fn write_rest<'a>(w: Writer<'a>, id: u8, rest: &[u8], at: u32) -> Writer<'a> {
    if rest.is_empty() {
        w
    } else {
        w.bytes(id, at, rest.len() as u32)
    }
}

/// A 24-bit metric, which has no value if it is unreachable.
#[inline]
fn measure_metric(metric: u32) -> usize {
    if is_unreachable(metric) { 10 } else { 14 }
}

/// Attached routers, both versions'.
fn measure_routers(routers: &[[u8; 4]]) -> usize {
    CONTAINER + routers.len() * 14
}

fn write_routers<'a>(w: Writer<'a>, id: u8, routers: &[[u8; 4]], o: u32) -> Writer<'a> {
    let count = routers.len() as u32;
    let mut w = w.open(id, o, 4 * count, count);
    let mut at = o;
    for router in routers {
        w = w.ipv4(98, at, u32::from_be_bytes(*router));
        at += 4;
    }
    w.close()
}
