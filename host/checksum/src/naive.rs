//! RFC 2328 12.1.7 and RFC 905 annex B, step by step: modulo 255 at every
//! byte, and the field set to zero before the sums are made.

/// Where the field is.
const AT: usize = 16;

/// The refusal of what is no LSA.
const REFUSED: u64 = 13 << 32;

/// C0 and C1 of the bytes after the age.
fn sums(lsa: &[u8]) -> (u32, u32) {
    let (mut c0, mut c1) = (0, 0);
    for &octet in &lsa[2..] {
        c0 = (c0 + u32::from(octet)) % 255;
        c1 = (c1 + c0) % 255;
    }
    (c0, c1)
}

/// As the export `ospf_lsa_checksum_check`.
pub fn check(lsa: &[u8]) -> u64 {
    if !(20..=65_535).contains(&lsa.len()) {
        return REFUSED;
    }
    u64::from(sums(lsa) == (0, 0) && lsa[AT..AT + 2] != [0, 0])
}

/// As the export `ospf_lsa_checksum_make`.
pub fn make(lsa: &mut [u8]) -> u64 {
    if !(20..=65_535).contains(&lsa.len()) {
        return REFUSED;
    }
    lsa[AT..AT + 2].fill(0);
    let (c0, c1) = sums(lsa);
    // B.3: L octets, of which the field's first is the 15th.
    let (c0, c1) = (i64::from(c0), i64::from(c1));
    let after = lsa.len() as i64 - 2 - 15;
    let x = octet(after * c0 - c1);
    let y = octet(c1 - (after + 1) * c0);
    lsa[AT..AT + 2].copy_from_slice(&[x, y]);
    u64::from(u16::from_be_bytes([x, y]))
}

fn octet(number: i64) -> u8 {
    match number.rem_euclid(255) {
        0 => 255,
        residue => residue as u8,
    }
}
