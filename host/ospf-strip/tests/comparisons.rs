//! Newness and the prefix comparison, beside the same said another way.

use ospf_strip::{Newness, Refusal, Version, exports, newness, same_prefix};

/// An LSA header: age, LS sequence number and checksum; the rest is filled.
fn header(age: u16, sequence: u32, checksum: u16, filling: u8) -> [u8; 20] {
    let mut bytes = [filling; 20];
    bytes[..2].copy_from_slice(&age.to_be_bytes());
    bytes[12..16].copy_from_slice(&sequence.to_be_bytes());
    bytes[16..18].copy_from_slice(&checksum.to_be_bytes());
    bytes
}

/// RFC 2328 13.1, as a sequence of comparisons.
fn expected(a: (u16, u32, u16), b: (u16, u32, u16)) -> Result<Newness, Refusal> {
    if a.0 > 3600 || b.0 > 3600 {
        return Err(Refusal::Age);
    }
    let by_number = (a.1 as i32, a.2).cmp(&(b.1 as i32, b.2));
    let by_max_age = (a.0 == 3600).cmp(&(b.0 == 3600));
    let by_age = if a.0.abs_diff(b.0) > 900 {
        b.0.cmp(&a.0)
    } else {
        std::cmp::Ordering::Equal
    };
    Ok(match by_number.then(by_max_age).then(by_age) {
        std::cmp::Ordering::Greater => Newness::First,
        std::cmp::Ordering::Less => Newness::Second,
        std::cmp::Ordering::Equal => Newness::Same,
    })
}

/// Every pair of headers with numbers at the edges of the rules.
fn instances() -> Vec<(u16, u32, u16)> {
    let ages = [0, 1, 899, 900, 901, 2699, 2700, 3599, 3600, 3601, 65_535];
    let sequences = [0x8000_0001, 0x8000_0000, u32::MAX, 0, 1, 0x7FFF_FFFF];
    let checksums = [0, 1, 0x7FFF, 0x8000, 0xFFFF];
    let pairs = sequences.iter().flat_map(|&s| checksums.map(|c| (s, c)));
    pairs
        .flat_map(|(s, c)| ages.map(|age| (age, s, c)))
        .collect()
}

#[test]
fn newness_by_the_rules() {
    let instances = instances();
    for &a in &instances {
        for &b in &instances {
            // What is no part of the rules differs.
            let (x, y) = (header(a.0, a.1, a.2, 0), header(b.0, b.1, b.2, 0xFF));
            for version in [Version::V2, Version::V3] {
                assert_eq!(newness(version, &x, &y), expected(a, b), "{a:x?} {b:x?}");
            }
        }
    }
}

/// 1, then 4, then 11; and what follows a header is not looked at.
#[test]
fn newness_refusals_in_order() {
    let (good, old) = (header(1, 5, 6, 0), header(3601, 5, 6, 0));
    for version in 0..=255 {
        for (first, second) in [(&good[..19], &old[..]), (&old, &good[..0]), (&old, &good)] {
            let known = matches!(version, 2 | 3);
            let short = first.len() < 20 || second.len() < 20;
            let number: u64 = match (known, short) {
                (false, _) => 1,
                (true, true) => 4,
                (true, false) => 11,
            };
            let answer = exports::ospf_newness(version, first, second);
            assert_eq!(answer, number << 32, "version {version}");
        }
    }
    let longer = [good.as_slice(), &[9; 30]].concat();
    assert_eq!(newness(Version::V3, &good, &longer), Ok(Newness::Same));
    assert_eq!(exports::ospf_newness(2, &header(1, 6, 6, 0), &good), 1);
    assert_eq!(exports::ospf_newness(2, &good, &header(1, 6, 6, 0)), 2);
}

/// An address of the octets given.
fn address(octets: &[u8]) -> [u8; 16] {
    std::array::from_fn(|i| octets.get(i).copied().unwrap_or(0))
}

/// The bits of an address, the first one first, as digits.
fn bits(address: [u8; 16]) -> String {
    address.map(|byte| format!("{byte:08b}")).concat()
}

/// The comparison by what is written: the digits of the address, as many as
/// the length says.
fn same(first_length: u8, first: &[u8], second_length: u8, second: &[u8]) -> Result<bool, Refusal> {
    let prefix = |length: u8, octets| Some(bits(address(octets)).get(..length.into())?.to_owned());
    match (prefix(first_length, first), prefix(second_length, second)) {
        (Some(first), Some(second)) => Ok(first_length == second_length && first == second),
        _ => Err(Refusal::PrefixLength),
    }
}

/// Addresses of all zeros, of all ones, and of both.
const ADDRESSES: [[u8; 16]; 4] = [
    [0; 16],
    [0xFF; 16],
    [0x5A; 16],
    [
        0x20, 0x01, 0x0D, 0xB8, 0x80, 0x7F, 0xFE, 0x01, 0x00, 0xFF, 0x10, 0xEF, 0x33, 0xCC, 0x96,
        0x69,
    ],
];

/// Every length, with one bit changed at every place: only below the length
/// it tells two prefixes apart, whichever of them comes first.
#[test]
fn prefixes_that_differ_in_one_bit() {
    for first in ADDRESSES {
        for length in 0..=128 {
            for place in 0..128 {
                let mut second = first;
                second[place / 8] ^= 0x80 >> (place % 8);
                let expected = Ok(place >= usize::from(length));
                let found = same_prefix(length, &first, length, &second);
                assert_eq!(found, expected, "{length} bits, bit {place}");
                let found = same_prefix(length, &second, length, &first);
                assert_eq!(found, expected, "{length} bits, bit {place}");
            }
        }
    }
}

/// Every length, with all bits changed from a place on: one below it or at
/// it.
#[test]
fn prefixes_with_junk_past_their_length() {
    for first in ADDRESSES {
        for length in 0..=128_u8 {
            let past = |place: u8| u128::MAX.checked_shr(place.into()).unwrap_or(0);
            let junk = |place| (u128::from_be_bytes(first) ^ past(place)).to_be_bytes();
            let found = same_prefix(length, &first, length, &junk(length));
            assert_eq!(found, Ok(true), "{length} bits");
            if let Some(before) = length.checked_sub(1) {
                let found = same_prefix(length, &first, length, &junk(before));
                assert_eq!(found, Ok(false), "{length} bits");
            }
        }
    }
}

/// Every length beside its neighbours, with octets of every number, changed
/// at every byte.
#[test]
fn prefixes_by_length_and_octets() {
    let octets: Vec<u8> = (1..=20).collect();
    let mut same_ones = 0;
    for first_length in 0..=255_u8 {
        for second_length in [first_length, first_length.wrapping_add(1), 128] {
            for (n, changed) in (0..=20).flat_map(|n| (0..=20).map(move |c| (n, c))) {
                let first = &octets[..n];
                let mut second = octets.clone();
                if let Some(byte) = second.get_mut(changed) {
                    *byte ^= 0x40;
                }
                let second = &second[..n.max(16)];
                let expected = same(first_length, first, second_length, second);
                let found = same_prefix(first_length, first, second_length, second);
                let exchanged = same_prefix(second_length, second, first_length, first);
                assert_eq!(
                    [found, exchanged],
                    [expected; 2],
                    "{first_length} {second_length} {n} {changed}"
                );
                same_ones += usize::from(found == Ok(true));
            }
        }
    }
    assert!(same_ones > 10_000, "{same_ones}");
}

/// Octets as they lie in a packet: those that are left out are zeros.
#[test]
fn octets_left_out_are_zeros() {
    assert_eq!(same_prefix(64, &[1, 2, 0, 0], 64, &[1, 2]), Ok(true));
    assert_eq!(same_prefix(128, &[], 128, &[0; 16]), Ok(true));
    assert_eq!(same_prefix(64, &[1, 2], 64, &[1, 2, 0, 1]), Ok(false));
    assert_eq!(exports::ospf_prefix_compare(7, &[], 7, &[]), 1);
    assert_eq!(exports::ospf_prefix_compare(7, &[], 8, &[]), 0);
    assert_eq!(exports::ospf_prefix_compare(129, &[], 8, &[]), 10 << 32);
}
