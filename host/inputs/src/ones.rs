//! Values of all ones, and nearly so. In a 24-bit metric they mean unreachable
//! (RFC 2328 appendix B); in opaque ids, options and metrics of 16 bits they are
//! numbers, and so is the same number in a tag.

use std::ops::Range;

use oracle::Walk;

use crate::lsa::{
    OPAQUE_TYPES, external_v3, inter_area_prefix, link, lsa, octets, prefix, prefix_list,
    router_v2, structured, update,
};
use crate::sweeps::{AROUND, resized, single};
use crate::{Class, Input, Rng, Take, V3_FUNCTIONS};

/// 24 one-bits. A place of 16 bits takes the low ones, a tag has zeros before
/// them.
const ONES: u32 = 0xFF_FFFF;

/// LS types of version 2, and functions of version 3, that have 24-bit metrics.
const ROUTES: [u16; 4] = [3, 4, 5, 7];

/// Where an LSA has its opaque id, and its options.
const OPAQUE_ID: Range<usize> = 5..8;
const OPTIONS: Range<usize> = 21..24;

/// Functions of version 3 that have options.
const WITH_OPTIONS: [u16; 7] = [1, 2, 4, 8, 33, 34, 40];

/// Where the 24-bit metrics of an LSA stand: the route's own, then those of its
/// TOS entries.
fn metrics(version: u8, function: u16, lsa: &[u8]) -> Vec<Range<usize>> {
    let end = lsa.len();
    let starts: Vec<usize> = match (version, function) {
        (2, 3 | 4) => (25..end).step_by(4).collect(),
        (2, 5 | 7) => (25..end).step_by(12).collect(),
        (3, 3 | 5 | 7) => vec![21],
        (3, 4) => vec![25],
        _ => Vec::new(),
    };
    let places = starts.into_iter().map(|at| at..at + 3);
    places.filter(|place| place.end <= end).collect()
}

/// Where those values of an LSA stand that are numbers though all ones.
fn numbers(version: u8, function: u16, lsa: &[u8]) -> Vec<Range<usize>> {
    let end = lsa.len();
    let mut places: Vec<Range<usize>> = match (version, function) {
        (2, 1) => link_metrics(lsa),
        (2, 5 | 7) => (32..end).step_by(12).map(|tag| tag..tag + 4).collect(),
        (2, 9..=11) => vec![OPAQUE_ID],
        (3, 1) => (24..end).step_by(16).map(|at| at + 2..at + 4).collect(),
        (3, 5 | 7) => tag_v3(lsa).into_iter().collect(),
        (3, 9) => prefix_metrics(lsa),
        _ => Vec::new(),
    };
    if version == 3 && WITH_OPTIONS.contains(&function) {
        places.push(OPTIONS);
    }
    places.retain(|place| place.end <= end);
    places
}

/// The metrics of a version 2 router LSA's links, and of their TOS entries.
fn link_metrics(lsa: &[u8]) -> Vec<Range<usize>> {
    let mut places = Vec::new();
    let mut at = 24;
    while let Some(link) = lsa.get(at..at + 12) {
        let end = at + 12 + 4 * link[9] as usize;
        places.push(at + 10..at + 12);
        places.extend((at + 12..end).step_by(4).map(|tos| tos + 2..tos + 4));
        at = end;
    }
    places
}

/// The metrics of a function 9 LSA's prefixes.
fn prefix_metrics(lsa: &[u8]) -> Vec<Range<usize>> {
    let mut places = Vec::new();
    let mut at = 32;
    while let Some(&length) = lsa.get(at) {
        places.push(at + 2..at + 4);
        at += 4 + octets(length);
    }
    places
}

/// The tag of a version 3 external LSA, if its flags have one.
fn tag_v3(lsa: &[u8]) -> Option<Range<usize>> {
    let (flags, length) = (*lsa.get(20)?, *lsa.get(24)?);
    let forwarding = if flags & 2 != 0 { 16 } else { 0 };
    let at = 28 + octets(length) + forwarding;
    (flags & 1 != 0).then_some(at..at + 4)
}

/// Writes the low bytes of a value.
fn put(lsa: &mut [u8], place: Range<usize>, value: u32) {
    let from = 4 - place.len();
    lsa[place].copy_from_slice(&value.to_be_bytes()[from..]);
}

/// All ones but for one bit that the place has.
fn nearly(rng: &mut Rng, place: &Range<usize>) -> u32 {
    ONES ^ 1 << rng.below(8 * place.len().min(3))
}

/// Each value that differs from 24 one-bits in one of them, these themselves,
/// and zero.
fn around() -> impl Iterator<Item = u32> {
    (0..24).map(|bit| ONES ^ 1 << bit).chain([ONES, 0])
}

/// Makes values of an LSA all ones, about one time in three: every one that can
/// be, or some, and some others nearly so.
pub fn some(version: u8, function: u16, lsa: &mut [u8]) {
    // A sequence of its own, so that all other contents stay as they are.
    let seed = lsa.iter().skip(8).take(8);
    let mut rng = Rng::new(seed.fold(0, |seed, &byte| seed << 8 | u64::from(byte)));
    let turn = rng.below(6);
    if turn > 1 {
        return;
    }
    let places = [
        metrics(version, function, lsa),
        numbers(version, function, lsa),
    ];
    for place in places.concat() {
        let value = match (turn, rng.below(4)) {
            (0, _) | (_, 0 | 1) => ONES,
            (_, 2) => nearly(&mut rng, &place),
            _ => continue,
        };
        put(lsa, place, value);
    }
}

/// All choices among `n` places where there are few; else all, none, each
/// alone, and all but each.
fn choices(n: usize) -> Vec<Vec<bool>> {
    if n <= 6 {
        let of = |bits: usize| (0..n).map(|i| bits >> i & 1 == 1).collect();
        return (0..1 << n).map(of).collect();
    }
    let same = [vec![true; n], vec![false; n]];
    let one = (0..n).flat_map(|i| {
        let of = |alone| (0..n).map(|j| (i == j) == alone).collect();
        [of(true), of(false)]
    });
    same.into_iter().chain(one).collect()
}

/// Metrics and numbers of all ones and nearly so at every place that has one.
pub fn unreachable(rng: &mut Rng, take: &mut Take<'_>) {
    for function in ROUTES {
        for tos in 0..=5 {
            let length = if function < 5 {
                8 + 4 * tos
            } else {
                16 + 12 * tos
            };
            let body = rng.bytes(length);
            chosen(rng, 2, function, &body, metrics, take);
        }
        routes_v3(rng, function, take);
    }
    numbers_v2(rng, take);
    numbers_v3(rng, take);
    whole_bodies(rng, take);
}

/// [`metrics`] or [`numbers`].
type Places = fn(u8, u16, &[u8]) -> Vec<Range<usize>>;

/// Each choice of places of this body all ones, the others as they are or nearly
/// so: as a single LSA with lengths around its own, and between two others in an
/// update. Then each value around, at the first place and at the last.
fn chosen(rng: &mut Rng, version: u8, function: u16, body: &[u8], of: Places, take: &mut Take<'_>) {
    let whole = record(rng, version, function, body);
    let places = of(version, function, &whole);
    for choice in choices(places.len()) {
        for near in [false, true] {
            let mut lsa = whole.clone();
            for (place, &ones) in places.iter().zip(&choice) {
                if ones {
                    put(&mut lsa, place.clone(), ONES);
                } else if near {
                    let value = nearly(rng, place);
                    put(&mut lsa, place.clone(), value);
                }
            }
            for by in AROUND {
                let data = resized(rng, &lsa, by);
                take(single(Class::Unreachable, version, data, rng.offset()));
            }
            take(between(rng, version, lsa));
        }
    }
    for place in places.iter().take(1).chain(places.iter().skip(1).last()) {
        for value in around() {
            let mut lsa = whole.clone();
            put(&mut lsa, place.clone(), value);
            take(single(Class::Unreachable, version, lsa, rng.offset()));
        }
    }
}

/// An LSA with this body; scope bits of version 3 and opaque types are random.
fn record(rng: &mut Rng, version: u8, function: u16, body: &[u8]) -> Vec<u8> {
    let scope = (rng.below(8) as u16) << 13;
    let scope = if version == 2 { 0 } else { scope };
    let mut lsa = lsa(rng, version, function | scope, body);
    if version == 2 && (9..=11).contains(&function) {
        lsa[4] = rng.pick(&OPAQUE_TYPES);
    }
    lsa
}

/// An update of this record between two others.
fn between(rng: &mut Rng, version: u8, record: Vec<u8>) -> Input {
    let records = [structured(rng, version), record, structured(rng, version)];
    Input {
        walk: Walk::Update,
        count: 3,
        ..single(
            Class::Unreachable,
            version,
            update(3, &records),
            rng.offset(),
        )
    }
}

/// The bodies of version 3 that have a 24-bit metric, with all that may follow
/// it.
fn routes_v3(rng: &mut Rng, function: u16, take: &mut Take<'_>) {
    let mut with = |rng: &mut Rng, body: &[u8]| {
        chosen(rng, 3, function, body, metrics, take);
    };
    if function == 4 {
        let body = rng.bytes(12);
        return with(rng, &body);
    }
    for length in [0, 1, 32, 33, 64, 128, 129] {
        if function == 3 {
            let body = inter_area_prefix(rng, length);
            with(rng, &body);
            continue;
        }
        for flags in 0..8 {
            let referenced = rng.pick(&[0, 0x2001]);
            let body = external_v3(rng, flags, length, referenced);
            with(rng, &body);
        }
    }
}

/// Opaque ids, in header lists too; the metrics of router links and of their
/// TOS entries, whose byte before the metric may be all ones as well; tags.
fn numbers_v2(rng: &mut Rng, take: &mut Take<'_>) {
    for ls_type in 9..=11 {
        for _ in OPAQUE_TYPES {
            let body = rng.bytes(8);
            chosen(rng, 2, ls_type, &body, numbers, take);
        }
        for value in around() {
            let mut header = record(rng, 2, ls_type, &[]);
            put(&mut header, OPAQUE_ID, value);
            take(Input {
                walk: Walk::Headers,
                ..single(Class::Unreachable, 2, header, rng.offset())
            });
        }
    }
    for links in 1..=3 {
        for tos in 0..=3 {
            for byte_before in [0, 0xFF] {
                let list: Vec<Vec<u8>> = (0..links)
                    .map(|_| {
                        let mut link = link(rng, tos);
                        let entries = link[12..].chunks_mut(4);
                        entries.for_each(|entry| entry[1] = byte_before);
                        link
                    })
                    .collect();
                let body = router_v2(rng, links, &list);
                chosen(rng, 2, 1, &body, numbers, take);
            }
        }
    }
    for ls_type in [5, 7] {
        for tos in 0..=2 {
            let body = rng.bytes(16 + 12 * tos);
            chosen(rng, 2, ls_type, &body, numbers, take);
        }
    }
}

/// Options; the metrics of router links and of prefixes; tags.
fn numbers_v3(rng: &mut Rng, take: &mut Take<'_>) {
    for function in WITH_OPTIONS {
        for length in [4, 12, 24, 40, 56] {
            let mut body = rng.bytes(length);
            // A link LSA's list has no prefix.
            body.iter_mut().skip(20).take(4).for_each(|byte| *byte = 0);
            chosen(rng, 3, function, &body, numbers, take);
        }
    }
    for n in 1..=4 {
        let prefixes: Vec<Vec<u8>> = (0..n).map(|i| prefix(rng, 33 * i as u8)).collect();
        let body = prefix_list(rng, 9, n, &prefixes);
        chosen(rng, 3, 9, &body, numbers, take);
    }
    for function in [5, 7] {
        for flags in [1, 3, 5] {
            let body = external_v3(rng, flags, 64, 0);
            chosen(rng, 3, function, &body, numbers, take);
        }
    }
}

/// Bodies of ones alone, of each length up to some entries, and the longest of
/// those that have TOS entries.
fn whole_bodies(rng: &mut Rng, take: &mut Take<'_>) {
    let types = (0..=12).map(|ls_type| (2, ls_type));
    let functions = V3_FUNCTIONS.iter().map(|&function| (3, function));
    for (version, function) in types.chain(functions) {
        for length in 0..=64 {
            let data = record(rng, version, function, &vec![0xFF; length]);
            take(single(Class::Unreachable, version, data, rng.offset()));
        }
    }
    for ls_type in ROUTES {
        let data = record(rng, 2, ls_type, &vec![0xFF; 65_515]);
        take(single(Class::Unreachable, 2, data, rng.offset()));
    }
}
