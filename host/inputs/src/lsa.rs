//! Builders of well-formed LSAs (RFC 2328 A.4, RFC 5340 A.4) with random
//! contents, and of updates made of them.

use crate::{Rng, ones};

/// LS types of version 2 that have a body of their own, and two that have not.
pub const V2_TYPES: [u16; 11] = [1, 2, 3, 4, 5, 6, 7, 8, 9, 10, 11];

/// Functions of version 3 that have a body of their own, and some that have not.
pub const V3_FUNCTIONS: [u16; 24] = [
    0, 1, 2, 3, 4, 5, 6, 7, 8, 9, 12, 33, 34, 35, 36, 37, 38, 39, 40, 41, 42, 43, 100, 0x1FFF,
];

/// Opaque types that hand over TLVs, and one that does not.
pub const OPAQUE_TYPES: [u8; 5] = [1, 4, 7, 8, 3];

/// An LSA with a random header, this type and body, and its true length.
pub fn lsa(rng: &mut Rng, version: u8, ls_type: u16, body: &[u8]) -> Vec<u8> {
    let mut lsa = rng.bytes(20);
    if version == 2 {
        lsa[3] = ls_type as u8;
    } else {
        lsa[2..4].copy_from_slice(&ls_type.to_be_bytes());
    }
    lsa.extend_from_slice(body);
    let length = lsa.len() as u16;
    lsa[18..20].copy_from_slice(&length.to_be_bytes());
    lsa
}

/// A well-formed LSA of a random type, sometimes with bytes after its body.
pub fn structured(rng: &mut Rng, version: u8) -> Vec<u8> {
    let ls_type = if version == 2 {
        rng.pick(&V2_TYPES)
    } else {
        rng.pick(&V3_FUNCTIONS)
    };
    structured_of(rng, version, ls_type)
}

/// A well-formed LSA of this LS type or function; version 3 scope bits are
/// random, and values may be all ones.
pub fn structured_of(rng: &mut Rng, version: u8, ls_type: u16) -> Vec<u8> {
    let mut body = match version {
        2 => v2_body(rng, ls_type),
        _ => v3_body(rng, ls_type),
    };
    if rng.below(4) == 0 {
        let extra = rng.below(14);
        body.extend(rng.bytes(extra));
    }
    let scope = if version == 2 {
        0
    } else {
        (rng.below(8) as u16) << 13
    };
    let mut lsa = lsa(rng, version, ls_type | scope, &body);
    if version == 2 && (9..=11).contains(&ls_type) {
        lsa[4] = rng.pick(&OPAQUE_TYPES);
    }
    ones::some(version, ls_type, &mut lsa);
    lsa
}

/// An update's body: the count, then the records.
pub fn update(count: u32, records: &[Vec<u8>]) -> Vec<u8> {
    [count.to_be_bytes().to_vec(), records.concat()].concat()
}

fn v2_body(rng: &mut Rng, ls_type: u16) -> Vec<u8> {
    let n = rng.below(6);
    match ls_type {
        1 => {
            let links: Vec<Vec<u8>> = (0..n)
                .map(|_| {
                    let tos = rng.pick(&[0, 0, 0, 1, 2, 7]);
                    link(rng, tos)
                })
                .collect();
            router_v2(rng, n as u16, &links)
        }
        2 => rng.bytes(4 + 4 * n),
        3 | 4 => rng.bytes(8 + 4 * n),
        5 | 7 => rng.bytes(16 + 12 * n),
        9..=11 => tlvs(rng, n),
        _ => rng.bytes(3 * n),
    }
}

/// A version 2 router body with this count and these links.
pub fn router_v2(rng: &mut Rng, count: u16, links: &[Vec<u8>]) -> Vec<u8> {
    let [high, low] = count.to_be_bytes();
    [vec![rng.byte(), rng.byte(), high, low], links.concat()].concat()
}

/// A version 2 router link with so many TOS entries.
pub fn link(rng: &mut Rng, tos: u8) -> Vec<u8> {
    let mut link = rng.bytes(12 + 4 * tos as usize);
    link[9] = tos;
    link
}

fn v3_body(rng: &mut Rng, function: u16) -> Vec<u8> {
    let n = rng.below(6);
    match function {
        1 => rng.bytes(4 + 16 * n),
        2 => rng.bytes(4 + 4 * n),
        3 => {
            let length = prefix_length(rng);
            inter_area_prefix(rng, length)
        }
        4 => rng.bytes(12),
        5 | 7 => {
            let (flags, length) = (rng.byte(), prefix_length(rng));
            let referenced = rng.pick(&[0, 1, 0x2001, 0x0100]);
            external_v3(rng, flags, length, referenced)
        }
        8 | 9 => {
            let prefixes: Vec<Vec<u8>> = (0..n)
                .map(|_| {
                    let length = prefix_length(rng);
                    prefix(rng, length)
                })
                .collect();
            prefix_list(rng, function, n as u32, &prefixes)
        }
        12 | 35..=37 | 39 | 42 => tlvs(rng, n),
        33 | 34 | 40 => [rng.bytes(4), tlvs(rng, n)].concat(),
        41 => [rng.bytes(12), tlvs(rng, n)].concat(),
        _ => rng.bytes(3 * n),
    }
}

/// Octets of a prefix length, as the requirements have it; none above 128.
pub fn octets(length: u8) -> usize {
    if length > 128 {
        return 0;
    }
    4 * (length as usize).div_ceil(32)
}

/// A function 3 body.
pub fn inter_area_prefix(rng: &mut Rng, length: u8) -> Vec<u8> {
    let mut body = rng.bytes(8 + octets(length));
    body[4] = length;
    body
}

/// A body of function 5 or 7 with all that its flags and type ask for.
pub fn external_v3(rng: &mut Rng, flags: u8, length: u8, referenced: u16) -> Vec<u8> {
    let forwarding = if flags & 2 != 0 { 16 } else { 0 };
    let tag = if flags & 1 != 0 { 4 } else { 0 };
    let reference = if referenced != 0 { 4 } else { 0 };
    let mut body = rng.bytes(8 + octets(length) + forwarding + tag + reference);
    body[0] = flags;
    body[4] = length;
    body[6..8].copy_from_slice(&referenced.to_be_bytes());
    body
}

/// A body of function 8 or 9 with this count and these prefixes.
pub fn prefix_list(rng: &mut Rng, function: u16, count: u32, prefixes: &[Vec<u8>]) -> Vec<u8> {
    let mut fixed = rng.bytes(if function == 8 { 24 } else { 12 });
    if function == 8 {
        fixed[20..24].copy_from_slice(&count.to_be_bytes());
    } else {
        fixed[0..2].copy_from_slice(&(count as u16).to_be_bytes());
    }
    [fixed, prefixes.concat()].concat()
}

/// An entry of a prefix list.
pub fn prefix(rng: &mut Rng, length: u8) -> Vec<u8> {
    let mut entry = rng.bytes(4 + octets(length));
    entry[0] = length;
    entry
}

fn prefix_length(rng: &mut Rng) -> u8 {
    rng.below(129) as u8
}

/// `n` TLVs, now and then one that is cut.
pub fn tlvs(rng: &mut Rng, n: usize) -> Vec<u8> {
    let mut all = Vec::new();
    for _ in 0..n {
        let length = rng.below(20);
        let declared = if rng.below(8) == 0 {
            length + 9
        } else {
            length
        };
        all.extend_from_slice(&[0, rng.below(12) as u8, 0, declared as u8]);
        all.extend(rng.bytes(length.div_ceil(4) * 4));
    }
    all
}
