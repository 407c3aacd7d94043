//! The comparison of two prefixes by hand-written Rust. [`careful`] compares
//! addresses as numbers of 128 bits; [`plain`] byte by byte.

use super::packed;

/// As `ospf_prefix_compare` answers.
pub type Compare = fn(u8, &[u8], u8, &[u8]) -> u64;

pub fn careful(first_length: u8, first: &[u8], second_length: u8, second: &[u8]) -> u64 {
    compare(first_length, second_length, || {
        let number = |octets| u128::from_be_bytes(address(octets));
        let differ = number(first) ^ number(second);
        differ.leading_zeros() >= first_length.into()
    })
}

pub fn plain(first_length: u8, first: &[u8], second_length: u8, second: &[u8]) -> u64 {
    compare(first_length, second_length, || {
        let (first, second) = (address(first), address(second));
        let (whole, rest) = (usize::from(first_length / 8), first_length % 8);
        let mask = !(0xFF_u8 >> rest);
        first[..whole] == second[..whole]
            && (rest == 0 || (first[whole] ^ second[whole]) & mask == 0)
    })
}

/// Refuses, compares the lengths, and then asks for the bits.
#[inline(always)]
fn compare(first_length: u8, second_length: u8, same_bits: impl FnOnce() -> bool) -> u64 {
    if first_length > 128 || second_length > 128 {
        return packed(10, 0);
    }
    packed(0, usize::from(first_length == second_length && same_bits()))
}

/// The octets, then zeros to 16.
#[inline(always)]
fn address(octets: &[u8]) -> [u8; 16] {
    let mut address = [0; 16];
    let n = octets.len().min(16);
    address[..n].copy_from_slice(&octets[..n]);
    address
}
