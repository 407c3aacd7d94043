//! LSAs of version 2 (RFC 2328 A.4, RFC 3101, RFC 5250).

use super::writer::{Writer, be16, be24, be32, is_unreachable};
use super::{
    BYTES, CONTAINER, Header, Lsa, measure_metric, measure_rest, measure_routers, write_rest,
    write_routers,
};

/// What a body's entries take, and how many of its bytes they cover.
type Measured = (usize, usize);

pub fn measure((header, body): Lsa<'_>) -> usize {
    let fields = measure_header(header);
    match measure_body(header, body) {
        Some((length, consumed)) => fields + length + measure_rest(&body[consumed..]),
        None => fields + measure_rest(body),
    }
}

/// An LSA; also how many entries it has, those inside its arrays left out.
pub fn write<'a>(w: Writer<'a>, (header, body): Lsa<'_>, o: u32) -> (Writer<'a>, u32) {
    let w = write_header(w, header, o);
    let (w, id, consumed, entries) = match write_body(w, header, body, o + 20) {
        (w, Some((consumed, entries))) => (w, 25, consumed, entries),
        (w, None) => (w, 23, 0, 0),
    };
    let rest = &body[consumed..];
    let entries = header_entries(header) + entries + u32::from(!rest.is_empty());
    (write_rest(w, id, rest, o + 20 + consumed as u32), entries)
}

/// What is left to write; how many bytes of the body the entries cover, and how
/// many they are, those inside arrays left out; none of a body that is raw.
type Written<'a> = (Writer<'a>, Option<(usize, u32)>);

fn is_opaque(header: &Header) -> bool {
    matches!(header[3], 9..=11)
}

pub fn measure_header(header: &Header) -> usize {
    if is_opaque(header) { 125 } else { 100 }
}

#[inline]
pub fn header_entries(header: &Header) -> u32 {
    if is_opaque(header) { 10 } else { 8 }
}

#[inline]
pub fn write_header<'a>(w: Writer<'a>, h: &Header, o: u32) -> Writer<'a> {
    let w = w
        .u16(0, o, be16(h, 0))
        .u8(1, o + 2, h[2])
        .u8(2, o + 3, h[3])
        .ipv4(3, o + 4, be32(h, 4))
        .ipv4(4, o + 8, be32(h, 8))
        .u32(5, o + 12, 4, be32(h, 12))
        .u16(6, o + 16, be16(h, 16))
        .u16(7, o + 18, be16(h, 18));
    if is_opaque(h) {
        w.u8(8, o + 4, h[4]).u32(9, o + 5, 3, be24(h, 4))
    } else {
        w
    }
}

fn measure_body(header: &Header, body: &[u8]) -> Option<Measured> {
    match header[3] {
        1 => measure_router(body),
        2 => measure_network(body),
        3 | 4 => measure_summary(body),
        5 | 7 => measure_external(body),
        9..=11 if has_tlvs(header[4]) => Some((BYTES, body.len())),
        _ => None,
    }
}

fn write_body<'a>(w: Writer<'a>, header: &Header, body: &[u8], o: u32) -> Written<'a> {
    match header[3] {
        1 => write_router(w, body, o),
        2 => write_network(w, body, o),
        3 | 4 => write_summary(w, body, o),
        5 | 7 => write_external(w, body, o),
        9..=11 if has_tlvs(header[4]) => {
            let w = w.bytes(24, o, body.len() as u32);
            (w, Some((body.len(), 1)))
        }
        _ => (w, None),
    }
}

fn has_tlvs(opaque_type: u8) -> bool {
    matches!(opaque_type, 1 | 4 | 7 | 8)
}

/// A router link: its fixed part and its TOS metrics.
type Link<'a> = (&'a [u8; 12], &'a [[u8; 4]]);

/// The link at the front of `rest`, if one stands there, and what follows it.
#[inline]
fn link(rest: &[u8]) -> Option<(Link<'_>, &[u8])> {
    let (link, after) = rest.split_first_chunk::<12>()?;
    let (tos, after) = after.split_at_checked(4 * usize::from(link[9]))?;
    Some(((link, tos.as_chunks().0), after))
}

fn measure_router(body: &[u8]) -> Option<Measured> {
    let ([_, _, high, low], links) = body.split_first_chunk::<4>()?;
    let mut length = 5 * 11 + 12 + CONTAINER;
    let mut rest = links;
    for _ in 0..u16::from_be_bytes([*high, *low]) {
        let Some(((_, tos), after)) = link(rest) else {
            break;
        };
        length += CONTAINER + 62 + measure_tos(tos.len(), 40);
        rest = after;
    }
    Some((length, body.len() - rest.len()))
}

fn write_router<'a>(w: Writer<'a>, body: &[u8], o: u32) -> Written<'a> {
    let Some((first, links)) = body.split_first_chunk::<4>() else {
        return (w, None);
    };
    let (flags, count) = (first[0], be16(first, 2));
    let w = w
        .u8(10, o, flags)
        .u8(11, o, flags >> 4 & 1)
        .u8(12, o, flags >> 2 & 1)
        .u8(13, o, flags >> 1 & 1)
        .u8(14, o, flags & 1)
        .u16(15, o + 2, count);
    let (array, mut w) = w.open_later();
    let mut taken = 0;
    let mut rest = links;
    let mut at = o + 4;
    for _ in 0..count {
        let Some((link, after)) = link(rest) else {
            break;
        };
        (w, at) = write_link(w, link, at);
        taken += 1;
        rest = after;
    }
    array.open(16, o + 4, at - (o + 4), taken);
    (w.close(), Some((body.len() - rest.len(), 7)))
}

/// One link; also where the next one starts.
#[inline]
fn write_link<'a>(w: Writer<'a>, (l, tos): Link<'_>, o: u32) -> (Writer<'a>, u32) {
    let count = tos.len() as u32;
    let size = 4 * count;
    let mut w = w
        .open(96, o, 12 + size, 5 + u32::from(count > 0))
        .ipv4(64, o, be32(l, 0))
        .ipv4(65, o + 4, be32(l, 4))
        .u8(66, o + 8, l[8])
        .u8(67, o + 9, l[9])
        .u16(68, o + 10, be16(l, 10));
    let mut at = o + 12;
    if !tos.is_empty() {
        w = w.open(69, at, size, count);
        for t in tos {
            w = w
                .open(97, at, 4, 2)
                .u8(81, at, t[0])
                .u32(82, at + 2, 2, be16(t, 2).into())
                .close();
            at += 4;
        }
        w = w.close();
    }
    (w.close(), at)
}

/// An array of TOS metrics, which is not opened if there is none.
fn measure_tos(count: usize, each: usize) -> usize {
    if count == 0 {
        0
    } else {
        CONTAINER + count * each
    }
}

fn measure_network(body: &[u8]) -> Option<Measured> {
    let (_, routers) = body.split_first_chunk::<4>()?;
    let (routers, rest) = routers.as_chunks();
    Some((14 + measure_routers(routers), body.len() - rest.len()))
}

fn write_network<'a>(w: Writer<'a>, body: &[u8], o: u32) -> Written<'a> {
    let Some((mask, routers)) = body.split_first_chunk::<4>() else {
        return (w, None);
    };
    let (routers, rest) = routers.as_chunks();
    let w = write_routers(w.ipv4(17, o, be32(mask, 0)), 18, routers, o + 4);
    (w, Some((body.len() - rest.len(), 2)))
}

/// An array of TOS entries that have a 24-bit metric in their first word, which
/// is not opened if there is none; `each` is what one takes that is not
/// unreachable.
#[inline]
fn measure_route_tos<const N: usize>(tos: &[[u8; N]], each: usize) -> usize {
    if tos.is_empty() {
        return 0;
    }
    // Counted in 32 bits, as wide as what is compared: in 64, vectors hold half.
    let unreachable = |t: &[u8; N]| u32::from(is_unreachable(be24(t, 0)));
    let unreachable: u32 = tos.iter().map(unreachable).sum();
    CONTAINER + tos.len() * each - 4 * unreachable as usize
}

fn measure_summary(body: &[u8]) -> Option<Measured> {
    let (f, tos) = body.split_first_chunk::<8>()?;
    let (tos, rest) = tos.as_chunks::<4>();
    let length = 14 + measure_metric(be24(f, 4)) + measure_route_tos(tos, 40);
    Some((length, body.len() - rest.len()))
}

fn write_summary<'a>(w: Writer<'a>, body: &[u8], o: u32) -> Written<'a> {
    let Some((f, tos)) = body.split_first_chunk::<8>() else {
        return (w, None);
    };
    let (tos, rest) = tos.as_chunks::<4>();
    let count = tos.len() as u32;
    let mut w = w.ipv4(17, o, be32(f, 0)).metric(19, o + 5, be24(f, 4));
    if !tos.is_empty() {
        let mut at = o + 8;
        w = w.open(20, at, 4 * count, count);
        for t in tos {
            w = w
                .open(97, at, 4, 2)
                .u8(81, at, t[0])
                .metric(82, at + 1, be24(t, 0))
                .close();
            at += 4;
        }
        w = w.close();
    }
    (w, Some((body.len() - rest.len(), 2 + u32::from(count > 0))))
}

fn measure_external(body: &[u8]) -> Option<Measured> {
    let (f, tos) = body.split_first_chunk::<16>()?;
    let (tos, rest) = tos.as_chunks::<12>();
    let length = 53 + measure_metric(be24(f, 4)) + measure_route_tos(tos, 79);
    Some((length, body.len() - rest.len()))
}

fn write_external<'a>(w: Writer<'a>, body: &[u8], o: u32) -> Written<'a> {
    let Some((f, tos)) = body.split_first_chunk::<16>() else {
        return (w, None);
    };
    let (tos, rest) = tos.as_chunks::<12>();
    let count = tos.len() as u32;
    let mut w = w
        .ipv4(17, o, be32(f, 0))
        .u8(13, o + 4, f[4] >> 7)
        .metric(19, o + 5, be24(f, 4))
        .ipv4(21, o + 8, be32(f, 8))
        .u32(22, o + 12, 4, be32(f, 12));
    if !tos.is_empty() {
        let mut at = o + 16;
        w = w.open(20, at, 12 * count, count);
        for t in tos {
            w = w
                .open(97, at, 12, 5)
                .u8(80, at, t[0] >> 7)
                .u8(81, at, t[0] & 0x7F)
                .metric(82, at + 1, be24(t, 0))
                .ipv4(83, at + 4, be32(t, 4))
                .u32(84, at + 8, 4, be32(t, 8))
                .close();
            at += 12;
        }
        w = w.close();
    }
    (w, Some((body.len() - rest.len(), 5 + u32::from(count > 0))))
}
