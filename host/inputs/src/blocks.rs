//! Classes of the blocks that may follow a packet: LLS data blocks (RFC 5613
//! 2.2) and OSPFv3 authentication trailers (RFC 7166 4.1). Both have a length
//! field at 2, the one in words of four bytes, the other in bytes.

use oracle::Walk;

use crate::lsa::tlvs;
use crate::random::damage;
use crate::{Class, Input, MOST_OFFSET, Rng, Take};

const READINGS: [Walk; 2] = [Walk::Lls, Walk::AuthTrailer];

/// Offsets at both ends of those that are accepted, and beyond.
const OFFSETS: [u64; 8] = [
    0,
    1,
    MOST_OFFSET - 1,
    MOST_OFFSET,
    MOST_OFFSET + 1,
    4_294_967_295,
    4_294_967_296,
    u64::MAX,
];

/// The reading of these data. Any version byte may stand beside them, since
/// it is not looked at.
fn reading(rng: &mut Rng, class: Class, walk: Walk, data: Vec<u8>, offset: u64) -> Input {
    Input {
        class,
        version: rng.byte(),
        walk,
        data,
        count: 0,
        offset,
    }
}

/// Random data of `length` bytes with this length field of a block, as far as
/// they reach.
pub fn with_length_field(rng: &mut Rng, length: usize, field: u16) -> Vec<u8> {
    let mut data = rng.bytes(length);
    let bytes = data.iter_mut().skip(2).zip(field.to_be_bytes());
    bytes.for_each(|(byte, of_field)| *byte = of_field);
    data
}

/// Every length field of one data, every short block, length fields around the
/// data's length, each end of the offsets, and the largest data.
pub fn block_length(rng: &mut Rng, take: &mut Take<'_>) {
    for walk in READINGS {
        let mut with = |rng: &mut Rng, length, field, offset| {
            let data = with_length_field(rng, length, field);
            take(reading(rng, Class::BlockLength, walk, data, offset));
        };
        for field in 0..=u16::MAX {
            let offset = rng.offset();
            with(rng, 40, field, offset);
        }
        for length in 0..=40 {
            for field in 0..=48 {
                with(rng, length, field, 0);
            }
        }
        for length in 41..=400_u16 {
            for middle in [length / 4, length, length * 4] {
                for field in middle - 2..=middle + 2 {
                    let offset = rng.offset();
                    with(rng, length.into(), field, offset);
                }
            }
        }
        for offset in OFFSETS {
            for length in [0, 3, 4, 15, 16, 40] {
                for field in [0, 1, 4, 10, 15, 16, 40, 41] {
                    with(rng, length, field, offset);
                }
            }
            for length in [65_534, 65_535, 65_536, 65_537] {
                let words = 16_382..=16_385;
                for field in [0, 1, 16].into_iter().chain(words).chain(65_533..=65_535) {
                    with(rng, length, field, offset);
                }
            }
        }
    }
}

/// Blocks alone and before other bytes, cut, damaged, and bytes without a
/// plan.
pub fn block(rng: &mut Rng, rounds: u32, take: &mut Take<'_>) {
    for _ in 0..rounds {
        for walk in READINGS {
            let whole = structured(rng, walk);
            let after = rng.below(40);
            let followed = [whole.clone(), rng.bytes(after)].concat();
            let cut = whole[..rng.below(whole.len())].to_vec();
            let mut all = vec![whole, followed.clone(), cut];
            for _ in 0..4 {
                let mut damaged = followed.clone();
                damage(rng, &mut damaged);
                all.push(damaged);
            }
            for _ in 0..2 {
                let length = rng.below(120);
                let mut data = rng.bytes(length);
                data.iter_mut().for_each(|byte| *byte &= 0x13);
                data.iter_mut().skip(2).take(1).for_each(|high| *high = 0);
                all.push(data);
            }
            for data in all {
                let offset = rng.offset();
                take(reading(rng, Class::Block, walk, data, offset));
            }
        }
    }
}

/// A whole block, most often as routers send it: an LLS block of TLVs, a
/// trailer with the digest of one of RFC 7166's algorithms.
fn structured(rng: &mut Rng, walk: Walk) -> Vec<u8> {
    let any = rng.below(300);
    let (fixed, contents, unit) = if walk == Walk::Lls {
        let n = rng.below(4);
        let contents = match rng.below(4) {
            0 => rng.bytes(any / 4 * 4),
            _ => tlvs(rng, n),
        };
        (4, contents, 4)
    } else {
        let digest = rng.pick(&[20, 32, 48, 64, any]);
        (16, rng.bytes(digest), 1)
    };
    let length = fixed + contents.len();
    let front = with_length_field(rng, fixed, (length / unit) as u16);
    [front, contents].concat()
}
