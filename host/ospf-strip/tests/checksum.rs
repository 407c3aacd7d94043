//! The LS checksum at its edges. host/checksum compares it with a second
//! implementation, and checks the published captures.

use ospf_strip::{Refusal, checksum_is_good, exports, make_checksum};

/// An LSA of so many bytes, each what its place makes of it.
fn lsa(length: usize) -> Vec<u8> {
    (0..length).map(|place| (place * 37 % 256) as u8).collect()
}

/// 13 exactly below 20 bytes and above 65,535; then nothing is written.
#[test]
fn lengths() {
    for length in (0..64).chain(65_500..65_600) {
        let before = lsa(length);
        let mut after = before.clone();
        let made = make_checksum(&mut after);
        if (20..=65_535).contains(&length) {
            assert_eq!(made.unwrap().to_be_bytes(), after[16..18], "{length}");
            assert!(checksum_is_good(&after).unwrap(), "{length}");
            after[16..18].copy_from_slice(&before[16..18]);
        } else {
            assert_eq!(made, Err(Refusal::LsaLength), "{length}");
            assert_eq!(checksum_is_good(&before), made.map(|_| true), "{length}");
        }
        assert_eq!(after, before, "{length}");
    }
}

/// The answers as they are packed.
#[test]
fn answers() {
    let mut bytes = lsa(20);
    assert_eq!(exports::ospf_lsa_checksum_check(&bytes), 0);
    assert_eq!(exports::ospf_lsa_checksum_check(&bytes[..19]), 13 << 32);
    assert_eq!(exports::ospf_lsa_checksum_make(&mut bytes[..19]), 13 << 32);
    let made = exports::ospf_lsa_checksum_make(&mut bytes);
    assert_eq!(made, u64::from(bytes[16]) << 8 | u64::from(bytes[17]));
    assert_eq!(exports::ospf_lsa_checksum_check(&bytes), 1);
}

/// The length that an LSA declares is not looked at.
#[test]
fn declared_length() {
    let mut bytes = lsa(40);
    for declared in [0_u16, 19, 20, 39, 40, 41, 65_535] {
        bytes[18..20].copy_from_slice(&declared.to_be_bytes());
        make_checksum(&mut bytes).unwrap();
        assert!(checksum_is_good(&bytes).unwrap(), "{declared}");
        assert!(!checksum_is_good(&bytes[..36]).unwrap(), "{declared}");
    }
}

/// Zeros alone, or 255 alone, make both sums zero: the field is then two
/// times 255, and two zeros there are bad.
#[test]
fn field_of_zeros() {
    for filling in [0, 255] {
        for length in [20, 21, 22, 23, 270, 271, 65_535] {
            let mut bytes = vec![filling; length];
            assert_eq!(make_checksum(&mut bytes), Ok(0xFFFF));
            for (field, good) in [
                ([0, 0], false),
                ([0, 255], true),
                ([255, 0], true),
                ([255, 255], true),
            ] {
                bytes[16..18].copy_from_slice(&field);
                assert_eq!(checksum_is_good(&bytes), Ok(good), "{filling} {length}");
            }
        }
    }
}

/// Of the two bytes from 1 to 255 only those that are made are good.
#[test]
fn only_one_field() {
    let mut bytes = lsa(33);
    let checksum = make_checksum(&mut bytes).unwrap();
    for field in 0x0101..=0xFFFF_u16 {
        bytes[16..18].copy_from_slice(&field.to_be_bytes());
        if !bytes[16..18].contains(&0) {
            assert_eq!(checksum_is_good(&bytes), Ok(field == checksum), "{field}");
        }
    }
}

/// Every change of one byte after the age, to every other byte. What is not
/// found is 0 for 255 and 255 for 0, unless it leaves the field zero.
#[test]
fn one_byte_changed() {
    let with_both = [vec![0; 20], vec![255; 4], lsa(40)].concat();
    for mut good in [lsa(24), lsa(27), vec![0; 20], vec![255; 21], with_both] {
        make_checksum(&mut good).unwrap();
        for field in [[good[16], good[17]], [255, 0], [0, 255]] {
            good[16..18].copy_from_slice(&field);
            if checksum_is_good(&good) == Ok(true) {
                every_change(&good);
            }
        }
    }
}

fn every_change(good: &[u8]) {
    for place in 0..good.len() {
        for byte in (0..=255).filter(|&byte| byte != good[place]) {
            let mut changed = good.to_vec();
            changed[place] = byte;
            let alike = good[place].abs_diff(byte) == 255;
            let not_found = place < 2 || alike && changed[16..18] != [0, 0];
            assert_eq!(checksum_is_good(&changed), Ok(not_found), "{place} {byte}");
        }
    }
}
