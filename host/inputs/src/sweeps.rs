//! Classes that go through all values of a byte or two.

use oracle::Walk;

use crate::lsa::{
    external_v3, inter_area_prefix, link, lsa, octets, prefix as prefix_entry, prefix_list,
    router_v2, update,
};
use crate::{Class, Input, Rng, Take, V3_FUNCTIONS};

/// Body lengths tried around one that is just enough.
pub const AROUND: [isize; 4] = [-1, 0, 1, 5];

pub fn single(class: Class, version: u8, data: Vec<u8>, offset: u64) -> Input {
    Input {
        class,
        version,
        walk: Walk::Lsa,
        data,
        count: 0,
        offset,
    }
}

/// The body made `by` bytes longer or shorter.
pub fn resized(rng: &mut Rng, body: &[u8], by: isize) -> Vec<u8> {
    let mut body = body.to_vec();
    if by < 0 {
        body.truncate(body.len().saturating_add_signed(by));
    } else {
        body.extend(rng.bytes(by as usize));
    }
    body
}

/// Every body of up to two bytes.
pub fn short(take: &mut Take<'_>) {
    for ls_type in 0..=12 {
        short_bodies(2, ls_type, take);
    }
    for function in V3_FUNCTIONS {
        short_bodies(3, function, take);
    }
}

fn short_bodies(version: u8, ls_type: u16, take: &mut Take<'_>) {
    let mut header = vec![0; 20];
    header[2..4].copy_from_slice(&ls_type.to_be_bytes());
    // Opaque types 1 and 4 hand over TLVs, 2 does not.
    header[4] = [1, 4, 2][ls_type as usize % 3];
    let mut all = |body: &[u8]| {
        let data = [&header, body].concat();
        take(single(Class::Short, version, data, 0));
    };
    all(&[]);
    for first in 0..=255 {
        all(&[first]);
        for second in 0..=255 {
            all(&[first, second]);
        }
    }
}

/// Every LS type; in version 2 with every opaque type for types 9 to 11.
pub fn types(rng: &mut Rng, take: &mut Take<'_>) {
    for ls_type in 0..=255 {
        for opaque_type in 0..=255 {
            if opaque_type > 0 && !(9..=11).contains(&ls_type) {
                continue;
            }
            let body = rng.bytes(40);
            let mut data = lsa(rng, 2, ls_type, &body);
            data[4] = opaque_type;
            take(single(Class::Type, 2, data, rng.offset()));
        }
    }
    for ls_type in 0..=u16::MAX {
        let body = rng.bytes(40);
        let data = lsa(rng, 3, ls_type, &body);
        take(single(Class::Type, 3, data, rng.offset()));
    }
}

/// Every TOS count of a link, alone, before and after another link; TOS
/// entries of summaries and externals by the body's length.
pub fn tos(rng: &mut Rng, take: &mut Take<'_>) {
    for count in 0..=255 {
        for by in AROUND {
            let (one, other) = (link(rng, count), link(rng, 1));
            let lists = [
                vec![one.clone()],
                vec![one.clone(), other.clone()],
                vec![other, one],
            ];
            for links in lists {
                let body = router_v2(rng, links.len() as u16, &links);
                let body = resized(rng, &body, by);
                let record = lsa(rng, 2, 1, &body);
                take(single(Class::Tos, 2, record.clone(), rng.offset()));
                take(alone(record, rng.offset()));
            }
        }
    }
    for length in 0..=120 {
        for ls_type in [2, 3, 4, 5, 7] {
            let body = rng.bytes(length);
            let data = lsa(rng, 2, ls_type, &body);
            take(single(Class::Tos, 2, data, rng.offset()));
        }
    }
}

/// An update of this one version 2 record.
fn alone(record: Vec<u8>, offset: u64) -> Input {
    Input {
        walk: Walk::Update,
        data: update(1, &[record]),
        count: 1,
        ..single(Class::Tos, 2, Vec::new(), offset)
    }
}

/// Every prefix length in each body that has one.
pub fn prefix(rng: &mut Rng, take: &mut Take<'_>) {
    for length in 0..=255 {
        for by in AROUND {
            let body = inter_area_prefix(rng, length);
            sized(rng, 3, &body, by, take);
            for function in [5, 7] {
                for flags in 0..8 {
                    for referenced in [0, 1] {
                        let body = external_v3(rng, flags, length, referenced);
                        sized(rng, function, &body, by, take);
                    }
                }
            }
            for function in [8, 9] {
                let entries = [prefix_entry(rng, length), prefix_entry(rng, 33)];
                for entries in [&entries[..1], &entries[..]] {
                    let body = prefix_list(rng, function, entries.len() as u32, entries);
                    sized(rng, function, &body, by, take);
                }
                let entries = [prefix_entry(rng, 64), entries[0].clone()];
                let body = prefix_list(rng, function, 2, &entries);
                sized(rng, function, &body, by, take);
            }
        }
        // The prefix itself cut at each octet.
        for left in 0..=octets(length) {
            let body = inter_area_prefix(rng, length);
            sized(rng, 3, &body[..8 + left], 0, take);
        }
    }
}

fn sized(rng: &mut Rng, function: u16, body: &[u8], by: isize, take: &mut Take<'_>) {
    let scope = (rng.below(8) as u16) << 13;
    let body = resized(rng, body, by);
    let data = lsa(rng, 3, function | scope, &body);
    take(single(Class::Prefix, 3, data, rng.offset()));
}

/// Every flags byte, for the bodies that take bits apart.
pub fn flags(rng: &mut Rng, take: &mut Take<'_>) {
    for flags in 0..=255 {
        for (version, ls_type) in [(2, 1), (3, 1), (3, 33), (2, 5), (2, 7)] {
            let mut body = rng.bytes(40);
            // Types 5 and 7 have their flag at 4, and again in each entry.
            body[if version == 2 && ls_type > 1 { 4 } else { 0 }] = flags;
            body[16] = flags;
            let data = lsa(rng, version, ls_type, &body);
            take(single(Class::Flags, version, data, rng.offset()));
        }
        for length in [0, 1, 32, 33, 64, 65, 96, 97, 128, 129, 255] {
            for referenced in [0, 0x0100, 0x2001] {
                for by in AROUND {
                    let body = external_v3(rng, flags, length, referenced);
                    let body = resized(rng, &body, by);
                    let function = rng.pick(&[5, 7]);
                    let data = lsa(rng, 3, function, &body);
                    take(single(Class::Flags, 3, data, rng.offset()));
                }
            }
        }
    }
}
