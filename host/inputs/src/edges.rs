//! Classes around counts, declared lengths, offsets, refusals and the
//! largest data.

use oracle::Walk;

use crate::lsa::{link, lsa, prefix, prefix_list, router_v2, structured, structured_of, update};
use crate::{Class, Input, MOST_OFFSET, Rng, Take};

/// Counts around `n`, and the largest.
fn around(n: u32, most: u32) -> [u32; 6] {
    [0, n.saturating_sub(1), n, n + 1, n + 1_000, most]
}

fn headers(class: Class, version: u8, data: Vec<u8>, offset: u64) -> Input {
    Input {
        class,
        version,
        walk: Walk::Headers,
        data,
        count: 0,
        offset,
    }
}

fn single(class: Class, version: u8, data: Vec<u8>, offset: u64) -> Input {
    Input {
        walk: Walk::Lsa,
        ..headers(class, version, data, offset)
    }
}

fn counted(class: Class, version: u8, data: Vec<u8>, count: u32, offset: u64) -> Input {
    Input {
        walk: Walk::Update,
        count,
        ..headers(class, version, data, offset)
    }
}

/// Counts of records, links and prefixes below, at and above what is there.
pub fn count(rng: &mut Rng, take: &mut Take<'_>) {
    for n in 0..12_u32 {
        for extra in [0, 3, 11, 12, 19, 20, 23] {
            for count in around(n, u32::MAX) {
                records(rng, n, count, extra, take);
            }
            for count in around(n, 65_535) {
                let links: Vec<Vec<u8>> = (0..n).map(|i| link(rng, i as u8 % 3)).collect();
                let mut body = router_v2(rng, count as u16, &links);
                body.extend(rng.bytes(extra));
                take(single(Class::Count, 2, lsa(rng, 2, 1, &body), rng.offset()));
            }
            for function in [8, 9] {
                let most = if function == 8 { u32::MAX } else { 65_535 };
                for count in around(n, most) {
                    prefixes(rng, function, n, count, extra, take);
                }
            }
        }
    }
}

/// `n` records under a count; the data's own first bytes say another one,
/// since the walk must go by its argument.
fn records(rng: &mut Rng, n: u32, count: u32, extra: usize, take: &mut Take<'_>) {
    for version in [2, 3] {
        let records: Vec<Vec<u8>> = (0..n).map(|_| structured(rng, version)).collect();
        let mut data = update(rng.bits() as u32, &records);
        data.extend(rng.bytes(extra));
        take(counted(Class::Count, version, data, count, rng.offset()));
    }
}

fn prefixes(rng: &mut Rng, function: u16, n: u32, count: u32, extra: usize, take: &mut Take<'_>) {
    let entries: Vec<Vec<u8>> = (0..n).map(|i| prefix(rng, i as u8 * 11)).collect();
    let mut body = prefix_list(rng, function, count, &entries);
    body.extend(rng.bytes(extra));
    let data = lsa(rng, 3, function, &body);
    take(single(Class::Count, 3, data, rng.offset()));
}

/// Every declared length of the only record of an update; and lengths 0 to 21
/// and past the end for the second of three.
pub fn declared_length(rng: &mut Rng, take: &mut Take<'_>) {
    for version in [2, 3] {
        let body = rng.bytes(30);
        let mut data = update(1, &[lsa(rng, version, 1, &body)]);
        for length in 0..=u16::MAX {
            data[22..24].copy_from_slice(&length.to_be_bytes());
            let class = Class::DeclaredLength;
            take(counted(class, version, data.clone(), 1, rng.offset()));
        }
        for ls_type in 0..=12 {
            second_of_three(rng, version, ls_type, take);
        }
    }
}

fn second_of_three(rng: &mut Rng, version: u8, ls_type: u16, take: &mut Take<'_>) {
    let records: Vec<Vec<u8>> = (0..3)
        .map(|_| structured_of(rng, version, ls_type))
        .collect();
    let (second, third) = (records[1].len() as u16, records[2].len() as u16);
    let rest = second + third;
    let past = [second, rest - 1, rest, rest + 1, rest + 100, u16::MAX];
    for length in (0..=21).chain(past) {
        let mut data = update(3, &records);
        let at = 4 + records[0].len() + 18;
        data[at..at + 2].copy_from_slice(&length.to_be_bytes());
        for count in [1, 2, 3, 4] {
            let class = Class::DeclaredLength;
            let offset = rng.offset();
            take(counted(class, version, data.clone(), count, offset));
        }
    }
}

/// The same data at offsets from 0 to beyond the largest.
pub fn offset(rng: &mut Rng, take: &mut Take<'_>) {
    let class = Class::Offset;
    let offsets = (0..64)
        .chain([255, 256, 65_535, 65_536, 16_777_215, 16_777_216])
        .chain([MOST_OFFSET - 1, MOST_OFFSET, MOST_OFFSET + 1])
        .chain([4_294_967_295, 4_294_967_296, 8_589_934_592, u64::MAX]);
    for offset in offsets {
        for version in [2, 3] {
            let record = structured(rng, version);
            let data = update(2, &[record.clone(), record.clone()]);
            take(counted(class, version, data, 2, offset));
            take(headers(class, version, record.clone(), offset));
            take(single(class, version, record, offset));
        }
    }
}

/// Every version byte, too much data, and too little, with other reasons
/// to refuse beside them.
pub fn refused(rng: &mut Rng, take: &mut Take<'_>) {
    let class = Class::Refused;
    for version in 0..=255 {
        for length in [0, 3, 19, 40] {
            let offset = rng.pick(&[0, MOST_OFFSET, MOST_OFFSET + 1]);
            all_walks(class, version, rng.bytes(length), offset, take);
        }
    }
    for version in [2, 3, 4] {
        for length in [65_535, 65_536, 65_537, 100_000] {
            for offset in [0, MOST_OFFSET, MOST_OFFSET + 1] {
                all_walks(class, version, vec![0; length], offset, take);
            }
        }
        for length in 0..=24 {
            for offset in [0, MOST_OFFSET, MOST_OFFSET + 1] {
                all_walks(class, version, rng.bytes(length), offset, take);
            }
        }
    }
}

fn all_walks(class: Class, version: u8, data: Vec<u8>, offset: u64, take: &mut Take<'_>) {
    take(headers(class, version, data.clone(), offset));
    take(counted(class, version, data.clone(), 1, offset));
    take(single(class, version, data, offset));
}

/// Data of 65,535 bytes, or nearly so.
pub fn large(rng: &mut Rng, take: &mut Take<'_>) {
    let class = Class::Large;
    for version in [2, 3] {
        take(headers(class, version, rng.bytes(65_535), MOST_OFFSET));
        take(counted(
            class,
            version,
            many(rng, version),
            u32::MAX,
            MOST_OFFSET,
        ));
        for ls_type in [1, 2, 3, 4, 5, 7, 8, 9] {
            let mut data = rng.bytes(65_535);
            data[2..4].copy_from_slice(&[0, ls_type]);
            take(single(class, version, data, MOST_OFFSET));
        }
    }
    let links: Vec<Vec<u8>> = (0..5_459).map(|_| link(rng, 0)).collect();
    let body = router_v2(rng, 65_535, &links);
    take(single(class, 2, lsa(rng, 2, 1, &body), 0));
    let tos: Vec<Vec<u8>> = (0..63).map(|_| link(rng, 255)).collect();
    let body = router_v2(rng, 63, &tos);
    take(single(class, 2, lsa(rng, 2, 1, &body), 0));
    for (function, n) in [(8, 16_372), (9, 16_375)] {
        let entries: Vec<Vec<u8>> = (0..n).map(|_| prefix(rng, 0)).collect();
        let body = prefix_list(rng, function, n, &entries);
        take(single(class, 3, lsa(rng, 3, function, &body), 0));
    }
    let entries: Vec<Vec<u8>> = (0..3_275).map(|_| prefix(rng, 128)).collect();
    let body = prefix_list(rng, 9, 3_275, &entries);
    take(single(class, 3, lsa(rng, 3, 9, &body), 0));
}

/// An update of as many structured records as fit.
fn many(rng: &mut Rng, version: u8) -> Vec<u8> {
    let mut data = vec![0; 4];
    loop {
        let record = structured(rng, version);
        if data.len() + record.len() > 65_535 {
            return data;
        }
        data.extend(record);
    }
}
