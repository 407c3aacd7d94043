//! Places where the reference, and so the strip, departs from an RFC. Each
//! test has the input of its paragraph in docs/DIFFERENCES.md.

use listing::hex;
use oracle::{Call, Outcome, Walk};

/// Bytes of strip that a header takes: eight fields, or seven.
const V2_HEADER: usize = 100;
const V3_HEADER: usize = 90;

fn run(version: u8, walk: Walk, data: &[u8]) -> (Vec<u8>, u32, u32) {
    let call = Call {
        version,
        walk,
        data,
        count: 1,
        offset: 0,
    };
    match call.run() {
        Outcome::Accepted {
            strip,
            records,
            tail,
            ..
        } => (strip, records, tail),
        other => panic!("{other:?}"),
    }
}

/// The entries that follow a single LSA's header.
fn body(version: u8, lsa: &str) -> Vec<u8> {
    let (strip, ..) = run(version, Walk::Lsa, &hex(lsa));
    let header = if version == 2 { V2_HEADER } else { V3_HEADER };
    strip[header..].to_vec()
}

fn check(version: u8, lsa: &str, entries: &str) {
    assert_eq!(body(version, lsa), listing::strip(entries), "{lsa}");
}

/// Whether the strip holds this entry.
fn has(strip: &[u8], entry: &str) -> bool {
    let entry = listing::strip(entry);
    strip.windows(entry.len()).any(|part| part == entry)
}

/// A version 2 router LSA with this body, in hexadecimal.
fn router(body: &str) -> String {
    let length = 20 + hex(body).len();
    format!("0001 02 01 0A000001 0A000001 80000001 0000 {length:04X} {body}")
}

const NO_FLAGS: &str = "u8 10 20 21 0\n u8 11 20 21 0\n u8 12 20 21 0\n u8 13 20 21 0\n \
                        u8 14 20 21 0\n";

#[test]
fn scope_of_a_version_3_ls_type_is_ignored() {
    let network = "u32 14 21 24 51\n open 16 24 28 1\n ip4 98 24 28 10.0.0.1\n close";
    for ls_type in ["2002", "0002", "4002", "6002", "E002"] {
        let lsa = format!("0001 {ls_type} 00000001 0A000001 80000001 0000 001C 00 000033 0A000001");
        check(3, &lsa, network);
    }
}

#[test]
fn reserved_bytes_are_not_tested() {
    let none = format!("{NO_FLAGS} u16 15 22 24 0\n open 16 24 24 0\n close");
    check(2, &router("00 00 0000"), &none);
    check(2, &router("00 EE 0000"), &none);
    let prefix = "u32 17 21 24 9\n u8 18 24 25 0\n u8 19 25 26 0\n \
                  ip6 20 28 28 00000000000000000000000000000000";
    let lsa = "0001 2003 00000001 0A000001 80000001 0000 001C";
    check(3, &format!("{lsa} 00 000009 00 00 0000"), prefix);
    check(3, &format!("{lsa} FF 000009 00 00 FFFF"), prefix);
}

#[test]
fn prefix_bits_past_the_length_are_kept() {
    check(
        3,
        "0001 2003 00000001 0A000001 80000001 0000 0020 00 000009 01 00 0000 FFFFFFFF",
        "u32 17 21 24 9\n u8 18 24 25 1\n u8 19 25 26 0\n \
         ip6 20 28 32 ffffffff000000000000000000000000",
    );
}

#[test]
fn age_sequence_number_and_checksum_are_not_tested() {
    let header = hex("FFFF 02 01 0A000001 0A000001 80000000 0000 0014");
    let (strip, records, _) = run(2, Walk::Headers, &header);
    assert_eq!(records, 1);
    assert!(has(&strip, "u16 0 0 2 65535"));
    assert!(has(&strip, "u32 5 12 16 2147483648"));
    assert!(has(&strip, "u16 6 16 18 0"));
}

/// In a header list and of a single LSA; in an update it cuts the records.
#[test]
fn declared_length_is_only_used_in_an_update() {
    let short = hex("0001 02 01 0A000001 0A000001 80000001 0000 0000");
    let (strip, records, tail) = run(2, Walk::Headers, &short);
    assert_eq!((records, tail), (1, 0));
    assert!(has(&strip, "u16 7 18 20 0"));
    let none = format!("{NO_FLAGS} u16 15 22 24 0\n open 16 24 24 0\n close");
    check(
        2,
        "0001 02 01 0A000001 0A000001 80000001 0000 0000 00 00 0000",
        &none,
    );
    check(
        2,
        "0001 02 01 0A000001 0A000001 80000001 0000 FFFF 00 00 0000",
        &none,
    );
    let update = [hex("00000001"), short].concat();
    assert_eq!(run(2, Walk::Update, &update).1, 0);
}

#[test]
fn counts_need_not_be_met() {
    let link = "0A000002 0A000003 01 00 000A";
    let fields = "ip4 64 24 28 10.0.0.2\n ip4 65 28 32 10.0.0.3\n u8 66 32 33 1\n \
                  u8 67 33 34 0\n u16 68 34 36 10\n";
    let above = format!(
        "{NO_FLAGS} u16 15 22 24 2\n open 16 24 36 1\n open 96 24 36 5\n {fields} close\n close"
    );
    check(2, &router(&format!("00 00 0002 {link}")), &above);
    let below = format!("{NO_FLAGS} u16 15 22 24 0\n open 16 24 24 0\n close\n bytes 25 24 36");
    check(2, &router(&format!("00 00 0000 {link}")), &below);
}

#[test]
fn bytes_after_the_last_entry_are_allowed() {
    let lsa = hex("0001 02 02 0A000001 0A000001 80000001 0000 001B FFFFFF00 010203");
    let (strip, _, tail) = run(2, Walk::Lsa, &lsa);
    assert_eq!(tail, 3);
    assert!(has(&strip, "bytes 25 24 27"));
}

#[test]
fn network_lsa_without_routers() {
    check(
        2,
        "0001 02 02 0A000001 0A000001 80000001 0000 0018 FFFFFF00",
        "ip4 17 20 24 255.255.255.0\n open 18 24 24 0\n close",
    );
}

#[test]
fn mask_of_a_type_4_summary_is_shown() {
    check(
        2,
        "0001 02 04 0A000001 0A000001 80000001 0000 001C FFFFFF00 00 00000A",
        "ip4 17 20 24 255.255.255.0\n u32 19 25 28 10",
    );
}

#[test]
fn unknown_link_types_are_shown() {
    let (strip, ..) = run(
        2,
        Walk::Lsa,
        &hex(&router("00 00 0001 0A000002 0A000003 09 00 000A")),
    );
    assert!(has(&strip, "u8 66 32 33 9"));
    let (strip, ..) = run(
        3,
        Walk::Lsa,
        &hex("0001 2001 00000000 0A000001 80000001 0000 0028 00 000033 \
             03 00 000A 00000001 00000002 0A000002"),
    );
    assert!(has(&strip, "u8 64 24 25 3"));
}

#[test]
fn w_bit_has_no_field() {
    let flags = "u8 10 20 21 8\n u8 11 20 21 0\n u8 12 20 21 0\n u8 13 20 21 0\n \
                  u8 14 20 21 0\n u16 15 22 24 0\n open 16 24 24 0\n close";
    check(2, &router("08 00 0000"), flags);
    check(
        3,
        "0001 2001 00000000 0A000001 80000001 0000 0018 08 000033",
        "u8 7 20 21 8\n u8 8 20 21 0\n u8 9 20 21 0\n u8 10 20 21 0\n u8 11 20 21 0\n \
         u32 14 21 24 51\n open 15 24 24 0\n close",
    );
}

#[test]
fn options_are_not_taken_apart() {
    let lsa = "0001 0A 07 0A000000 0A000001 80000001 0000 0024 \
               FFFFFF00 80 00000A 00000000 00000000";
    let (strip, ..) = run(2, Walk::Lsa, &hex(lsa));
    assert!(has(&strip, "u8 1 2 3 10"));
    // RFC 3101: with the P-bit, which is 0x08, the address is not zero.
    assert!(has(&strip, "ip4 21 28 32 0.0.0.0"));
}

#[test]
fn forwarding_address_of_zeros() {
    let zeros = "00000000 00000000 00000000 00000000";
    let lsa =
        format!("0001 4005 00000001 0A000001 80000001 0000 002C 02 00000A 00 00 0000 {zeros}");
    let (strip, ..) = run(3, Walk::Lsa, &hex(&lsa));
    assert!(has(&strip, "ip6 23 28 44 00000000000000000000000000000000"));
}

#[test]
fn link_local_address_is_not_tested() {
    let address = "20010DB8 00000000 00000000 00000001";
    let lsa =
        format!("0001 0008 00000001 0A000001 80000001 0000 002C 01 000033 {address} 00000000");
    let (strip, ..) = run(3, Walk::Lsa, &hex(&lsa));
    assert!(has(&strip, "ip6 27 24 40 20010db8000000000000000000000001"));
}

#[test]
fn types_with_a_layout_that_stay_raw() {
    // Type 8 never had a layout.
    for ls_type in ["06", "08"] {
        let lsa =
            format!("0001 02 {ls_type} 0A000001 0A000001 80000001 0000 001C 00000001 0A000001");
        check(2, &lsa, "bytes 23 20 28");
    }
    // The grace LSA of RFC 3623: TLVs, but no entry of its own in the reference.
    let grace = "0001 02 09 03000000 0A000001 80000001 0000 001C 0001 0004 00000078";
    check(2, grace, "u8 8 4 5 3\n u32 9 5 8 0\n bytes 23 20 28");
    for ls_type in ["A00A", "000B"] {
        let lsa = format!("0001 {ls_type} 00000001 0A000001 80000001 0000 001C 0001 0004 00000078");
        check(3, &lsa, "bytes 31 20 28");
    }
}

/// RFC 3630 2.1 has the TE LSA in LS type 10 alone.
#[test]
fn opaque_type_with_any_ls_type() {
    for ls_type in ["09", "0A", "0B"] {
        let lsa = format!("0001 02 {ls_type} 01000000 0A000001 80000001 0000 0014");
        check(2, &lsa, "u8 8 4 5 1\n u32 9 5 8 0\n bytes 24 20 20");
    }
}

#[test]
fn referenced_ls_type_is_not_tested() {
    let lsa = "0001 2009 00000000 0A000001 80000001 0000 0020 0000 FFFF 00000000 0A000001";
    check(
        3,
        lsa,
        "u32 28 20 22 0\n u16 22 22 24 65535\n u32 25 24 28 0\n ip4 30 28 32 10.0.0.1\n \
         open 29 32 32 0\n close",
    );
}

/// A fixed prefix makes the body raw; in a list the entries before it stay.
#[test]
fn prefix_length_above_128_is_no_error() {
    let lsa = "0001 2003 00000001 0A000001 80000001 0000 001C 00 000009 81 00 0000";
    check(3, lsa, "bytes 31 20 28");
    let lsa = "0001 2009 00000000 0A000001 80000001 0000 0028 0002 2001 00000000 0A000001 \
               00 00 000A 81 00 000A";
    check(
        3,
        lsa,
        "u32 28 20 22 2\n u16 22 22 24 8193\n u32 25 24 28 0\n ip4 30 28 32 10.0.0.1\n \
         open 29 32 36 1\n open 97 32 36 4\n u8 80 32 33 0\n u8 81 33 34 0\n u16 82 34 36 10\n \
         ip6 83 36 36 00000000000000000000000000000000\n close\n close\n bytes 33 36 40",
    );
}

#[test]
fn widths_that_are_not_the_fields() {
    let tos = "0A000002 0A000003 01 01 000A 02 00 0014";
    let (strip, ..) = run(2, Walk::Lsa, &hex(&router(&format!("00 00 0001 {tos}"))));
    assert!(has(&strip, "u32 82 38 40 20"));
    let lsa = "0001 2009 00000000 0A000001 80000001 0000 0020 0000 2001 00000000 0A000001";
    let (strip, ..) = run(3, Walk::Lsa, &hex(lsa));
    assert!(has(&strip, "u32 28 20 22 0"));
}

/// The entries of a block of these bytes.
fn block(walk: Walk, data: &str) -> Vec<u8> {
    run(3, walk, &hex(data)).0
}

#[test]
fn checksum_of_an_lls_block_is_not_tested() {
    // The standard IP checksum of the block is FFF6.
    for checksum in ["FFF6", "1234", "0000"] {
        let found = block(Walk::Lls, &format!("{checksum} 0003 0001 0004 00000001"));
        let number = u16::from_str_radix(checksum, 16).expect("four digits");
        assert!(has(&found, &format!("u16 128 0 2 {number}")));
        assert!(has(&found, "bytes 130 4 12"));
    }
}

#[test]
fn tlvs_of_an_lls_block_are_not_tested() {
    // The authentication TLV first, and twice; a TLV that does not fit; none.
    let twice = "0002 0004 00000001";
    for tlvs in [&format!("{twice} {twice}"), "0001 FFFF", ""] {
        let end = 4 + hex(tlvs).len();
        let found = block(Walk::Lls, &format!("0000 {:04X} {tlvs}", end / 4));
        assert!(has(&found, &format!("bytes 130 4 {end}")), "{tlvs}");
    }
}

#[test]
fn authentication_type_is_not_tested() {
    for auth_type in [0, 1, 2, 65_535] {
        let data = format!("{auth_type:04X} 0010 0000 0064 0000000000000001");
        let found = block(Walk::AuthTrailer, &data);
        assert!(has(&found, &format!("u16 144 0 2 {auth_type}")));
    }
}

#[test]
fn digest_and_sequence_number_are_not_tested() {
    for digest in [0, 1, 19, 20, 21, 65] {
        let end = 16 + digest;
        let data = format!("0001 {end:04X} 0000 0064 0000000000000000");
        let found = block(Walk::AuthTrailer, &(data + &"00".repeat(digest)));
        assert!(has(&found, &format!("bytes 148 16 {end}")));
        assert!(has(&found, "u64 147 8 16 0"));
    }
}

#[test]
fn reserved_bits_of_a_trailer_are_not_shown() {
    let trailer = |reserved| format!("0001 0010 {reserved} 0064 0000000000000001");
    let zeros = block(Walk::AuthTrailer, &trailer("0000"));
    assert_eq!(block(Walk::AuthTrailer, &trailer("EEEE")), zeros);
}

#[test]
fn block_with_a_wrong_length_is_absent() {
    let absent = [
        (Walk::Lls, "0000 0000"),
        (Walk::Lls, "FFF6 0004 0001 0004 00000001"),
        (Walk::AuthTrailer, "0001 000F 0000 0064 0000000000000001"),
        (Walk::AuthTrailer, "0001 0011 0000 0064 0000000000000001"),
    ];
    for (walk, data) in absent {
        let call = Call {
            version: 3,
            walk,
            data: &hex(data),
            count: 0,
            offset: 0,
        };
        assert_eq!(call.run(), Outcome::Absent, "{data}");
    }
}
