//! LSAs of version 3 (RFC 5340 A.4, RFC 8362 for the extended ones).

use super::writer::{Writer, be16, be24, be32};
use super::{
    BYTES, CONTAINER, Header, Lsa, measure_metric, measure_rest, measure_routers, write_rest,
    write_routers,
};

/// What the fields of a header take, and how many they are.
pub const HEADER_LENGTH: usize = 90;
pub const HEADER_ENTRIES: u32 = 7;

/// What a body's entries take, and how many of its bytes they cover.
type Measured = (usize, usize);

pub fn measure((header, body): Lsa<'_>) -> usize {
    match measure_body(function(header), body) {
        Some((length, consumed)) => HEADER_LENGTH + length + measure_rest(&body[consumed..]),
        None => HEADER_LENGTH + measure_rest(body),
    }
}

/// An LSA; also how many entries it has, those inside its arrays left out.
pub fn write<'a>(w: Writer<'a>, (header, body): Lsa<'_>, o: u32) -> (Writer<'a>, u32) {
    let w = write_header(w, header, o);
    let (w, id, consumed, entries) = match write_body(w, function(header), body, o + 20) {
        (w, Some((consumed, entries))) => (w, 33, consumed, entries),
        (w, None) => (w, 31, 0, 0),
    };
    let rest = &body[consumed..];
    let entries = HEADER_ENTRIES + entries + u32::from(!rest.is_empty());
    (write_rest(w, id, rest, o + 20 + consumed as u32), entries)
}

/// What is left to write; how many bytes of the body the entries cover, and how
/// many they are, those inside arrays left out; none of a body that is raw.
type Written<'a> = (Writer<'a>, Option<(usize, u32)>);

#[inline]
pub fn write_header<'a>(w: Writer<'a>, h: &Header, o: u32) -> Writer<'a> {
    w.u16(0, o, be16(h, 0))
        .u16(1, o + 2, be16(h, 2))
        .u32(2, o + 4, 4, be32(h, 4))
        .ipv4(3, o + 8, be32(h, 8))
        .u32(4, o + 12, 4, be32(h, 12))
        .u16(5, o + 16, be16(h, 16))
        .u16(6, o + 18, be16(h, 18))
}

/// The function code, without the U bit and the scope.
fn function(header: &Header) -> u16 {
    be16(header, 2) & 0x1FFF
}

fn measure_body(function: u16, body: &[u8]) -> Option<Measured> {
    match function {
        1 => measure_router(body),
        2 => measure_network(body),
        3 => measure_inter_area_prefix(body),
        4 => measure_inter_area_router(body),
        5 | 7 => measure_external(body),
        8 => measure_link_lsa(body),
        9 => measure_intra_area_prefix(body),
        12 | 35 | 36 | 37 | 39 | 42 => Some((BYTES, body.len())),
        33 => body.get(..4).map(|_| (55 + 14 + BYTES, body.len())),
        34 => body.get(..4).map(|_| (14 + BYTES, body.len())),
        40 => body.get(..4).map(|_| (11 + 14 + BYTES, body.len())),
        41 => body.get(..12).map(|_| (40 + BYTES, body.len())),
        _ => None,
    }
}

fn write_body<'a>(w: Writer<'a>, function: u16, body: &[u8], o: u32) -> Written<'a> {
    match function {
        1 => write_router(w, body, o),
        2 => write_network(w, body, o),
        3 => write_inter_area_prefix(w, body, o),
        4 => write_inter_area_router(w, body, o),
        5 | 7 => write_external(w, body, o),
        8 => write_link_lsa(w, body, o),
        9 => write_intra_area_prefix(w, body, o),
        12 | 35 | 36 | 37 | 39 | 42 => (write_tlvs(w, body, 0, o), Some((body.len(), 1))),
        33 | 34 | 40 => write_extended(w, function, body, o),
        41 => write_extended_prefix(w, body, o),
        _ => (w, None),
    }
}

fn write_router_flags(w: Writer<'_>, flags: u8, o: u32) -> Writer<'_> {
    w.u8(7, o, flags)
        .u8(8, o, flags >> 4 & 1)
        .u8(9, o, flags >> 2 & 1)
        .u8(10, o, flags >> 1 & 1)
        .u8(11, o, flags & 1)
}

/// Options, in the last three bytes of a word.
#[inline]
fn write_options<'a>(w: Writer<'a>, word: &[u8], o: u32) -> Writer<'a> {
    w.u32(14, o + 1, 3, be24(word, 0))
}

#[inline]
fn write_references<'a>(w: Writer<'a>, f: &[u8; 12], o: u32) -> Writer<'a> {
    w.u16(22, o + 2, be16(f, 2))
        .u32(25, o + 4, 4, be32(f, 4))
        .ipv4(30, o + 8, be32(f, 8))
}

/// TLVs from `first` to the body's end.
fn write_tlvs<'a>(w: Writer<'a>, body: &[u8], first: u32, o: u32) -> Writer<'a> {
    w.bytes(32, o + first, body.len() as u32 - first)
}

/// Extended LSAs for routers, networks and links.
fn write_extended<'a>(w: Writer<'a>, function: u16, body: &[u8], o: u32) -> Written<'a> {
    let Some(first) = body.first_chunk::<4>() else {
        return (w, None);
    };
    let (w, before) = match function {
        33 => (write_router_flags(w, first[0], o), 5),
        40 => (w.u8(26, o, first[0]), 1),
        _ => (w, 0),
    };
    let w = write_tlvs(write_options(w, first, o), body, 4, o);
    (w, Some((body.len(), before + 2)))
}

/// The extended intra-area-prefix LSA.
fn write_extended_prefix<'a>(w: Writer<'a>, body: &[u8], o: u32) -> Written<'a> {
    let Some(first) = body.first_chunk() else {
        return (w, None);
    };
    let w = write_tlvs(write_references(w, first, o), body, 12, o);
    (w, Some((body.len(), 4)))
}

fn measure_router(body: &[u8]) -> Option<Measured> {
    let (_, links) = body.split_first_chunk::<4>()?;
    let (links, rest) = links.as_chunks::<16>();
    let length = 55 + 14 + CONTAINER + links.len() * 80;
    Some((length, body.len() - rest.len()))
}

fn write_router<'a>(w: Writer<'a>, body: &[u8], o: u32) -> Written<'a> {
    let Some((first, links)) = body.split_first_chunk::<4>() else {
        return (w, None);
    };
    let (links, rest) = links.as_chunks::<16>();
    let mut w = write_options(write_router_flags(w, first[0], o), first, o);
    let mut at = o + 4;
    let count = links.len() as u32;
    w = w.open(15, at, 16 * count, count);
    for l in links {
        w = w
            .open(96, at, 16, 5)
            .u8(64, at, l[0])
            .u16(65, at + 2, be16(l, 2))
            .u32(66, at + 4, 4, be32(l, 4))
            .u32(67, at + 8, 4, be32(l, 8))
            .ipv4(68, at + 12, be32(l, 12))
            .close();
        at += 16;
    }
    (w.close(), Some((body.len() - rest.len(), 7)))
}

fn measure_network(body: &[u8]) -> Option<Measured> {
    let (_, routers) = body.split_first_chunk::<4>()?;
    let (routers, rest) = routers.as_chunks();
    Some((14 + measure_routers(routers), body.len() - rest.len()))
}

fn write_network<'a>(w: Writer<'a>, body: &[u8], o: u32) -> Written<'a> {
    let Some((first, routers)) = body.split_first_chunk::<4>() else {
        return (w, None);
    };
    let (routers, rest) = routers.as_chunks();
    let w = write_routers(write_options(w, first, o), 16, routers, o + 4);
    (w, Some((body.len() - rest.len(), 2)))
}

fn measure_inter_area_router(body: &[u8]) -> Option<Measured> {
    let f = body.first_chunk::<12>()?;
    Some((2 * 14 + measure_metric(be24(f, 4)), 12))
}

fn write_inter_area_router<'a>(w: Writer<'a>, body: &[u8], o: u32) -> Written<'a> {
    let Some(f) = body.first_chunk::<12>() else {
        return (w, None);
    };
    let w = write_options(w, f, o)
        .metric(17, o + 5, be24(f, 4))
        .ipv4(21, o + 8, be32(f, 8));
    (w, Some((12, 3)))
}

/// Octets of a prefix length; none above 128.
#[inline]
fn octets(length: u8) -> Option<usize> {
    (length <= 128).then(|| usize::from(length).div_ceil(32) * 4)
}

/// A body's first eight bytes and the octets of the prefix after them.
fn fixed_prefix(body: &[u8]) -> Option<(&[u8; 8], &[u8])> {
    let (first, rest) = body.split_first_chunk::<8>()?;
    Some((first, rest.get(..octets(first[4])?)?))
}

fn measure_inter_area_prefix(body: &[u8]) -> Option<Measured> {
    let (f, prefix) = fixed_prefix(body)?;
    let length = measure_metric(be24(f, 0)) + 11 + 11 + 26;
    Some((length, 8 + prefix.len()))
}

fn write_inter_area_prefix<'a>(w: Writer<'a>, body: &[u8], o: u32) -> Written<'a> {
    let Some((f, prefix)) = fixed_prefix(body) else {
        return (w, None);
    };
    let w = w
        .metric(17, o + 1, be24(f, 0))
        .u8(18, o + 4, f[4])
        .u8(19, o + 5, f[5])
        .ipv6(20, o + 8, prefix);
    (w, Some((8 + prefix.len(), 4)))
}

/// The parts of an external LSA, all of them in its body.
struct External<'a> {
    first: &'a [u8; 8],
    prefix: &'a [u8],
    forwarding: Option<&'a [u8; 16]>,
    tag: Option<&'a [u8; 4]>,
    reference: Option<&'a [u8; 4]>,
}

/// A part that is present or not, off the front of `rest`.
#[inline]
fn part<'a, const N: usize>(rest: &mut &'a [u8], has: bool) -> Option<Option<&'a [u8; N]>> {
    if !has {
        return Some(None);
    }
    let (part, after) = rest.split_first_chunk()?;
    *rest = after;
    Some(Some(part))
}

fn external(body: &[u8]) -> Option<External<'_>> {
    let (first, prefix) = fixed_prefix(body)?;
    let mut rest = &body[8 + prefix.len()..];
    Some(External {
        first,
        prefix,
        forwarding: part(&mut rest, first[0] & 2 != 0)?,
        tag: part(&mut rest, first[0] & 1 != 0)?,
        reference: part(&mut rest, be16(first, 6) != 0)?,
    })
}

fn measure_external(body: &[u8]) -> Option<Measured> {
    let x = external(body)?;
    let metric = measure_metric(be24(x.first, 0));
    let mut measured = (4 * 11 + metric + 60, 8 + x.prefix.len());
    let optional = [
        (x.forwarding.is_some(), (26, 16)),
        (x.tag.is_some(), (14, 4)),
        (x.reference.is_some(), (14, 4)),
    ];
    for (has, (length, size)) in optional {
        if has {
            measured = (measured.0 + length, measured.1 + size);
        }
    }
    Some(measured)
}

fn write_external<'a>(w: Writer<'a>, body: &[u8], o: u32) -> Written<'a> {
    let Some(x) = external(body) else {
        return (w, None);
    };
    let f = x.first;
    let mut w = w
        .u8(7, o, f[0])
        .u8(10, o, f[0] >> 2 & 1)
        .u8(12, o, f[0] >> 1 & 1)
        .u8(13, o, f[0] & 1)
        .metric(17, o + 1, be24(f, 0))
        .u8(18, o + 4, f[4])
        .u8(19, o + 5, f[5])
        .u16(22, o + 6, be16(f, 6))
        .ipv6(20, o + 8, x.prefix);
    let (mut consumed, mut entries) = (8 + x.prefix.len(), 9);
    if let Some(forwarding) = x.forwarding {
        w = w.ipv6(23, o + consumed as u32, forwarding);
        consumed += 16;
        entries += 1;
    }
    if let Some(tag) = x.tag {
        w = w.u32(24, o + consumed as u32, 4, be32(tag, 0));
        consumed += 4;
        entries += 1;
    }
    if let Some(reference) = x.reference {
        w = w.u32(25, o + consumed as u32, 4, be32(reference, 0));
        consumed += 4;
        entries += 1;
    }
    (w, Some((consumed, entries)))
}

/// An entry of a prefix list: its first four bytes and its octets.
type Prefix<'a> = (&'a [u8; 4], &'a [u8]);

/// The prefix at the front of `rest`, if one stands there, and what follows it.
#[inline]
fn prefix(rest: &[u8]) -> Option<(Prefix<'_>, &[u8])> {
    let (first, after) = rest.split_first_chunk::<4>()?;
    let (prefix, after) = after.split_at_checked(octets(first[0])?)?;
    Some(((first, prefix), after))
}

/// The array of prefixes at the front of `list`, at most `count` of them, and
/// how many bytes they cover.
#[inline]
fn measure_prefixes(list: &[u8], count: u32, each: usize) -> Measured {
    let mut length = CONTAINER;
    let mut rest = list;
    for _ in 0..count {
        let Some((_, after)) = prefix(rest) else {
            break;
        };
        length += each;
        rest = after;
    }
    (length, list.len() - rest.len())
}

/// The same array, written; `METRIC` says whether its entries have one.
#[inline]
fn write_prefixes<'a, const METRIC: bool>(
    w: Writer<'a>,
    list: &[u8],
    count: u32,
    o: u32,
) -> (Writer<'a>, usize) {
    let (array, mut w) = w.open_later();
    let mut taken = 0;
    let mut rest = list;
    let mut at = o;
    for _ in 0..count {
        let Some(((f, octets), after)) = prefix(rest) else {
            break;
        };
        let size = 4 + octets.len() as u32;
        w = w
            .open(97, at, size, 3 + u32::from(METRIC))
            .u8(80, at, f[0])
            .u8(81, at + 1, f[1]);
        if METRIC {
            w = w.u16(82, at + 2, be16(f, 2));
        }
        w = w.ipv6(83, at + 4, octets).close();
        at += size;
        taken += 1;
        rest = after;
    }
    array.open(29, o, at - o, taken);
    (w.close(), list.len() - rest.len())
}

fn measure_link_lsa(body: &[u8]) -> Option<Measured> {
    let (f, list) = body.split_first_chunk::<24>()?;
    let (length, consumed) = measure_prefixes(list, be32(f, 20), 63);
    Some((11 + 14 + 26 + 14 + length, 24 + consumed))
}

fn write_link_lsa<'a>(w: Writer<'a>, body: &[u8], o: u32) -> Written<'a> {
    let Some((f, list)) = body.split_first_chunk::<24>() else {
        return (w, None);
    };
    let w = write_options(w.u8(26, o, f[0]), f, o)
        .ipv6(27, o + 4, &f[4..20])
        .u32(28, o + 20, 4, be32(f, 20));
    let (w, consumed) = write_prefixes::<false>(w, list, be32(f, 20), o + 24);
    (w, Some((24 + consumed, 5)))
}

fn measure_intra_area_prefix(body: &[u8]) -> Option<Measured> {
    let (f, list) = body.split_first_chunk::<12>()?;
    let (length, consumed) = measure_prefixes(list, be16(f, 0).into(), 75);
    Some((14 + 40 + length, 12 + consumed))
}

fn write_intra_area_prefix<'a>(w: Writer<'a>, body: &[u8], o: u32) -> Written<'a> {
    let Some((f, list)) = body.split_first_chunk::<12>() else {
        return (w, None);
    };
    let count = be16(f, 0).into();
    let w = write_references(w.u32(28, o, 2, count), f, o);
    let (w, consumed) = write_prefixes::<true>(w, list, count, o + 12);
    (w, Some((12 + consumed, 5)))
}
