//! The two readings of a block. The strips are written by hand from the
//! requirements and from the diagrams of RFC 5613 2.2 and RFC 7166 4.1.

use listing::{bytes, hex};
use oracle::{Answer, Call, Outcome, Walk};

const MOST_OFFSET: u64 = 4_294_901_760;

/// Extended options with the LR-bit, in a block of three words.
const LLS: &str = "FFF6 0003 0001 0004 00000001";

/// A trailer with the digest of HMAC-SHA-1 but its bytes. Its reserved bits
/// are not 0.
const AUTH_TRAILER: &str = "0001 0024 EEEE 0064 0102030405060708";

fn trailer() -> Vec<u8> {
    [hex(AUTH_TRAILER), bytes(20, 0xD1)].concat()
}

fn call(walk: Walk, data: &[u8], offset: u64) -> Call<'_> {
    Call {
        version: 0,
        walk,
        data,
        count: 0,
        offset,
    }
}

/// Compares strip and answer, for buffers that are full and larger.
fn check(walk: Walk, data: &[u8], offset: u64, entries: &str, block: u32) {
    let strip = listing::strip(entries);
    assert_eq!(strip.len(), if walk == Walk::Lls { 49 } else { 79 });
    let answer = Answer {
        length: strip.len() as u32,
        block,
        ..Answer::default()
    };
    for more in [0, 3] {
        let mut buffer = bytes(strip.len() + more, 0xA5);
        assert_eq!(call(walk, data, offset).run().lend(&mut buffer), answer);
        assert_eq!(buffer, [strip.clone(), bytes(more, 0xA5)].concat());
    }
}

#[test]
fn lls_block_of_three_words() {
    let entries = "open 136 0 12 3\n u16 128 0 2 65526\n u16 129 2 4 3\n bytes 130 4 12\n close";
    check(Walk::Lls, &hex(LLS), 0, entries, 12);
    // What follows the block is not looked at.
    for after in [1, 4, 100] {
        let data = [hex(LLS), bytes(after, 0xFF)].concat();
        check(Walk::Lls, &data, 0, entries, 12);
    }
}

/// The range of TLVs is there though it is empty, and ends with the block
/// where the last TLV does not fit.
#[test]
fn lls_block_without_whole_tlvs() {
    let empty = "open 136 0 4 3\n u16 128 0 2 4660\n u16 129 2 4 1\n bytes 130 4 4\n close";
    check(Walk::Lls, &hex("1234 0001"), 0, empty, 4);
    let cut = "open 136 0 12 3\n u16 128 0 2 0\n u16 129 2 4 3\n bytes 130 4 12\n close";
    check(Walk::Lls, &hex("0000 0003 0001 0005 00000001"), 0, cut, 12);
    let second = "open 136 0 20 3\n u16 128 0 2 0\n u16 129 2 4 5\n bytes 130 4 20\n close";
    let data = hex("0000 0005 0001 0004 00000001 0002 FFFF 00000000");
    check(Walk::Lls, &data, 0, second, 20);
}

#[test]
fn lls_block_at_the_largest_offset() {
    let mut data = bytes(65_535, 0x77);
    data[2..4].copy_from_slice(&16_383_u16.to_be_bytes());
    let entries = "open 136 4294901760 4294967292 3\n u16 128 4294901760 4294901762 30583\n \
                   u16 129 4294901762 4294901764 16383\n bytes 130 4294901764 4294967292\n close";
    check(Walk::Lls, &data, MOST_OFFSET, entries, 65_532);
}

#[test]
fn auth_trailer_of_36_bytes() {
    let entries = "open 152 0 36 5\n u16 144 0 2 1\n u16 145 2 4 36\n u16 146 6 8 100\n \
                   u64 147 8 16 72623859790382856\n bytes 148 16 36\n close";
    check(Walk::AuthTrailer, &trailer(), 0, entries, 36);
    let data = [trailer(), bytes(9, 0xFF)].concat();
    check(Walk::AuthTrailer, &data, 0, entries, 36);
}

#[test]
fn auth_trailer_without_a_digest() {
    let entries = "open 152 7 23 5\n u16 144 7 9 65535\n u16 145 9 11 16\n u16 146 13 15 65535\n \
                   u64 147 15 23 18446744073709551615\n bytes 148 23 23\n close";
    let data = hex("FFFF 0010 0000 FFFF FFFFFFFFFFFFFFFF");
    check(Walk::AuthTrailer, &data, 7, entries, 16);
}

#[test]
fn auth_trailer_at_the_largest_offset() {
    let mut data = bytes(65_535, 0);
    data[2..4].copy_from_slice(&[0xFF, 0xFF]);
    data[15] = 9;
    let entries = "open 152 4294901760 4294967295 5\n u16 144 4294901760 4294901762 0\n \
                   u16 145 4294901762 4294901764 65535\n u16 146 4294901766 4294901768 0\n \
                   u64 147 4294901768 4294901776 9\n bytes 148 4294901776 4294967295\n close";
    check(Walk::AuthTrailer, &data, MOST_OFFSET, entries, 65_535);
}

/// The block's length of every short data and length field, or none.
#[test]
fn found_or_absent() {
    let cases: [(Walk, usize, usize); 2] = [(Walk::Lls, 4, 4), (Walk::AuthTrailer, 16, 1)];
    for (walk, least, unit) in cases {
        for length in 0..=40 {
            for field in 0..=50_u16 {
                let mut data = bytes(length, 0);
                let bytes = field.to_be_bytes();
                data.iter_mut().skip(2).zip(bytes).for_each(|(d, b)| *d = b);
                let block = unit * usize::from(field);
                let found = length >= least && block >= least && block <= length;
                let expected = found.then_some(block as u32);
                assert_eq!(block_of(walk, &data), expected, "{walk:?} {data:?}");
            }
        }
    }
}

fn block_of(walk: Walk, data: &[u8]) -> Option<u32> {
    match call(walk, data, 0).run() {
        Outcome::Accepted { block, .. } => Some(block),
        Outcome::Absent => None,
        Outcome::Refused(number) => panic!("refusal {number}"),
    }
}

/// Refusals 2 and 3, then absent, then 5; each with those after it present
/// as well.
#[test]
fn refusals_in_order() {
    for (walk, data) in [(Walk::Lls, hex(LLS)), (Walk::AuthTrailer, trailer())] {
        let needed = if walk == Walk::Lls { 49 } else { 79 };
        let long = [data.clone(), bytes(65_536 - data.len(), 0)].concat();
        let cases: [(&[u8], u64, u8, u32); 7] = [
            (&long, u64::MAX, 2, 0),
            (&long, 0, 2, 0),
            (&data, MOST_OFFSET + 1, 3, 0),
            (&[], u64::MAX, 3, 0),
            (&data[..data.len() - 1], MOST_OFFSET, 0, 0),
            (&data, MOST_OFFSET, 5, needed),
            (&long[..65_535], 0, 5, needed),
        ];
        for (data, offset, number, length) in cases {
            for room in [0, needed as usize - 1] {
                let mut buffer = bytes(room, 0xA5);
                let answer = call(walk, data, offset).run().lend(&mut buffer);
                let expected = Answer {
                    number,
                    length,
                    ..Answer::default()
                };
                assert_eq!(answer, expected, "{walk:?}, offset {offset}");
                assert_eq!(buffer, bytes(room, 0xA5));
            }
        }
    }
}

/// The length, the number from bit 32, the block's length from bit 40; absent
/// is 0.
#[test]
fn packed_answers() {
    let packed = |walk, data: &[u8], room| call(walk, data, 0).run().answer(room).packed();
    assert_eq!(packed(Walk::Lls, &hex(LLS), 49), 0x0C00_0000_0031);
    assert_eq!(packed(Walk::Lls, &hex(LLS), 48), 0x05_0000_0031);
    assert_eq!(packed(Walk::Lls, &hex(LLS)[..11], 49), 0);
    assert_eq!(packed(Walk::AuthTrailer, &trailer(), 79), 0x2400_0000_004F);
    assert_eq!(packed(Walk::AuthTrailer, &trailer(), 0), 0x05_0000_004F);
    assert_eq!(packed(Walk::AuthTrailer, &trailer()[..35], 79), 0);
    let mut most = bytes(65_535, 0xFF);
    assert_eq!(packed(Walk::AuthTrailer, &most, 79), 0x00FF_FF00_0000_004F);
    most.push(0);
    assert_eq!(packed(Walk::AuthTrailer, &most, 79), 0x02_0000_0000);
}

#[test]
fn version_and_count_are_not_looked_at() {
    for walk in [Walk::Lls, Walk::AuthTrailer] {
        let data = if walk == Walk::Lls {
            hex(LLS)
        } else {
            trailer()
        };
        let plain = call(walk, &data, 3);
        for version in 0..=255 {
            let other = Call {
                version,
                count: version.into(),
                ..plain
            };
            assert_eq!(other.run(), plain.run(), "version {version}");
        }
    }
}

/// The names of the strip's ids. What is left over after TLVs has none.
#[test]
fn names_of_the_fields() {
    let names = |walk, data: &[u8]| -> Vec<(u8, &str, &str)> {
        let names = call(walk, data, 0).names().into_iter();
        names
            .map(|(id, field)| (id, field.name, field.display_name))
            .collect()
    };
    let lls = [
        (136, "lls", "LLS Data Block"),
        (128, "checksum", "Checksum"),
        (129, "lls_data_length", "LLS Data Length"),
        (130, "tlvs", "TLVs"),
    ];
    assert_eq!(names(Walk::Lls, &hex(LLS)), lls);
    assert_eq!(names(Walk::Lls, &hex("0000 0002 0001 0004")), lls);
    let auth_trailer = [
        (152, "auth_trailer", "Authentication Trailer"),
        (144, "auth_type", "Authentication Type"),
        (145, "auth_data_len", "Auth Data Len"),
        (146, "sa_id", "Security Association ID"),
        (
            147,
            "crypto_sequence_number",
            "Cryptographic Sequence Number",
        ),
        (148, "auth_data", "Authentication Data"),
    ];
    assert_eq!(names(Walk::AuthTrailer, &trailer()), auth_trailer);
    assert_eq!(names(Walk::AuthTrailer, &trailer()[..35]), []);
}
