//! The blocks after a packet: LLS data blocks (RFC 5613 2.2) and OSPFv3
//! authentication trailers (RFC 7166 4.1). A strip of known length is taken
//! off the lent one by one test, so that its entries need none.

use super::writer::{Writer, be16, be64};
use super::{out_of_bounds, packed};

/// What the strip of each takes.
const LLS_LENGTH: usize = 49;
const AUTH_TRAILER_LENGTH: usize = 79;

/// Absent is no refusal, and has nothing in its answer.
const ABSENT: u64 = 0;

/// Reads the LLS data block at the front of `data`, if one stands there.
// Not inlined, since the library's is not: a call of either is a call.
#[inline(never)]
pub fn lls(data: &[u8], offset: u64, strip: &mut [u8]) -> u64 {
    let number = out_of_bounds(data, offset);
    if number != 0 {
        return packed(number, 0);
    }
    let Some(first) = data.first_chunk::<4>() else {
        return ABSENT;
    };
    let words = be16(first, 2);
    let length = 4 * u32::from(words);
    if words == 0 || length as usize > data.len() {
        return ABSENT;
    }
    let Some(strip) = strip.first_chunk_mut::<LLS_LENGTH>() else {
        return packed(5, LLS_LENGTH);
    };
    let o = offset as u32;
    Writer::new(strip)
        .open(136, o, length, 3)
        .u16(128, o, be16(first, 0))
        .u16(129, o + 2, words)
        .bytes(130, o + 4, length - 4)
        .close();
    found(LLS_LENGTH, length)
}

/// Reads the authentication trailer at the front of `data`, if one stands
/// there.
#[inline(never)]
pub fn auth_trailer(data: &[u8], offset: u64, strip: &mut [u8]) -> u64 {
    let number = out_of_bounds(data, offset);
    if number != 0 {
        return packed(number, 0);
    }
    let Some(first) = data.first_chunk::<16>() else {
        return ABSENT;
    };
    let length = be16(first, 2);
    if length < 16 || usize::from(length) > data.len() {
        return ABSENT;
    }
    let Some(strip) = strip.first_chunk_mut::<AUTH_TRAILER_LENGTH>() else {
        return packed(5, AUTH_TRAILER_LENGTH);
    };
    let o = offset as u32;
    Writer::new(strip)
        .open(152, o, length.into(), 5)
        .u16(144, o, be16(first, 0))
        .u16(145, o + 2, length)
        .u16(146, o + 6, be16(first, 6))
        .u64(147, o + 8, be64(first, 8))
        .bytes(148, o + 16, u32::from(length) - 16)
        .close();
    found(AUTH_TRAILER_LENGTH, length.into())
}

/// The answer for a block of this length.
fn found(strip: usize, block: u32) -> u64 {
    packed(0, strip) | u64::from(block) << 40
}
