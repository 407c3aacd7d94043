//! The comparison on its own: nothing is found in the second implementation,
//! and each of several wrong ones is found.

use checksum::{Checksum, NAIVE, compare, naive};

const SEED: u64 = 3;

/// The call on which the first difference is found, on lengths that the
/// misreadings turn on.
fn found(of: Checksum) -> Option<&'static str> {
    let lengths = (0..400).chain(65_534..65_540);
    compare(of, SEED, lengths)
        .err()
        .map(|difference| difference.call)
}

#[test]
fn nothing_in_the_second_implementation() {
    assert_eq!(found(NAIVE), None);
}

/// The sums of some bytes, modulo a number.
fn zero(octets: &[u8], modulus: u64) -> bool {
    let (mut c0, mut c1) = (0, 0);
    for &octet in octets {
        c0 += u64::from(octet);
        c1 += c0;
    }
    (c0 % modulus, c1 % modulus) == (0, 0)
}

#[test]
fn wrong_checks_are_found() {
    let wrong: [fn(&[u8]) -> u64; 5] = [
        // Modulo 256.
        |lsa| match naive::check(lsa) {
            0 | 1 => u64::from(zero(&lsa[2..], 256) && lsa[16..18] != [0, 0]),
            refused => refused,
        },
        // The age is covered.
        |lsa| match naive::check(lsa) {
            0 | 1 => u64::from(zero(lsa, 255) && lsa[16..18] != [0, 0]),
            refused => refused,
        },
        // A field of zeros is good.
        |lsa| match naive::check(lsa) {
            0 | 1 => u64::from(zero(&lsa[2..], 255)),
            refused => refused,
        },
        // 19 bytes are accepted.
        |lsa| {
            if lsa.len() == 19 {
                0
            } else {
                naive::check(lsa)
            }
        },
        // So are 65,536.
        |lsa| match lsa.len() {
            65_536 => 0,
            _ => naive::check(lsa),
        },
    ];
    for (number, check) in wrong.into_iter().enumerate() {
        let wrong = Checksum { check, ..NAIVE };
        assert_eq!(found(wrong), Some("check"), "{number}");
    }
}

#[test]
fn wrong_makings_are_found() {
    let wrong: [fn(&mut [u8]) -> u64; 6] = [
        // A residue of zero is written as 0.
        |lsa| {
            let answer = naive::make(lsa);
            if answer >> 32 == 0 {
                lsa[16..18]
                    .iter_mut()
                    .for_each(|octet| *octet = (u16::from(*octet) % 255) as u8);
            }
            answer
        },
        // The two bytes change places.
        |lsa| {
            let answer = naive::make(lsa);
            if answer >> 32 == 0 {
                lsa.swap(16, 17);
            }
            answer
        },
        // A third byte is written.
        |lsa| {
            let answer = naive::make(lsa);
            if answer >> 32 == 0 {
                lsa[18] = 0;
            }
            answer
        },
        // The low byte of the answer comes first.
        |lsa| match naive::make(lsa) {
            made if made >> 32 == 0 => u64::from((made as u16).swap_bytes()),
            refused => refused,
        },
        // A refusal writes.
        |lsa| {
            let answer = naive::make(lsa);
            if answer >> 32 != 0 && lsa.len() > 17 {
                lsa[16..18].fill(255);
            }
            answer
        },
        // The field is not zero while the sums are made.
        |lsa| {
            let was = lsa.get(16).copied().unwrap_or_default();
            let answer = naive::make(lsa);
            if answer >> 32 == 0 && was != 0 {
                lsa[16] = lsa[16].wrapping_add(was);
            }
            answer
        },
    ];
    for (number, make) in wrong.into_iter().enumerate() {
        let wrong = Checksum { make, ..NAIVE };
        assert_eq!(found(wrong), Some("make"), "{number}");
    }
}
