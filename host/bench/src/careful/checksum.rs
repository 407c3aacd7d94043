//! The LS checksum by hand-written Rust: no division inside the loop, no
//! index test there and no unsafe code. [`CAREFUL`] takes a word of four bytes
//! at a time, as the port does; [`PLAIN`] a byte.

use checksum::Checksum;

use super::packed;

/// Where the field is.
const AT: usize = 16;

/// The two sums, modulo 255, of the bytes after the age.
type Sums = fn(&[u8]) -> (u64, u64);

pub const CAREFUL: Checksum = Checksum {
    check: |lsa| check(lsa, by_words),
    make: |lsa| make(lsa, by_words),
};

pub const PLAIN: Checksum = Checksum {
    check: |lsa| check(lsa, by_bytes),
    make: |lsa| make(lsa, by_bytes),
};

#[inline(always)]
fn check(lsa: &[u8], sums: Sums) -> u64 {
    if !(20..=65_535).contains(&lsa.len()) {
        return packed(13, 0);
    }
    let good = sums(lsa) == (0, 0) && lsa[AT..AT + 2] != [0, 0];
    packed(0, usize::from(good))
}

/// What the field adds to the sums is taken off, so it is not zeroed first.
#[inline(always)]
fn make(lsa: &mut [u8], sums: Sums) -> u64 {
    if !(20..=65_535).contains(&lsa.len()) {
        return packed(13, 0);
    }
    let (c0, c1) = sums(lsa);
    let after = lsa.len() as u64 - 17;
    let x = octet(u64::from(lsa[AT]) + after * c0 + (255 - c1));
    let y = octet(u64::from(lsa[AT + 1]) + (after + 1) * (255 - c0) + c1);
    lsa[AT] = x;
    lsa[AT + 1] = y;
    packed(0, u16::from_be_bytes([x, y]).into())
}

fn octet(number: u64) -> u8 {
    match number % 255 {
        0 => 255,
        residue => residue as u8,
    }
}

/// 256 is 1 modulo 255: a word is the sum of its bytes, its upper half that of
/// the last two, and its second and fourth byte in their places that of these.
#[inline(always)]
fn by_words(lsa: &[u8]) -> (u64, u64) {
    let [_, _, a, b, rest @ ..] = lsa else {
        return (0, 0);
    };
    let mut c0 = u64::from(*a) + u64::from(*b);
    let mut c1 = u64::from(*a) + c0;
    let (mut after, mut halves, mut odd) = (0, 0, 0);
    let (words, last) = rest.as_chunks();
    for &word in words {
        let word = u64::from(u32::from_le_bytes(word));
        c0 += word;
        after += c0;
        halves += word >> 16;
        odd += word >> 8 & 0x00FF_00FF;
    }
    c1 += 4 * after + 254 * (2 * halves + odd);
    for &octet in last {
        c0 += u64::from(octet);
        c1 += c0;
    }
    (c0 % 255, c1 % 255)
}

#[inline(always)]
fn by_bytes(lsa: &[u8]) -> (u64, u64) {
    let (mut c0, mut c1) = (0, 0);
    for &octet in &lsa[2..] {
        c0 += u64::from(octet);
        c1 += c0;
    }
    (c0 % 255, c1 % 255)
}
