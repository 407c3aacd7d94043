//! The requirements' worked listing and its edge bodies P1 to P12. What is
//! expected is written by hand from the document, not taken from the oracle; the
//! lengths of strips are the document's and four bytes more a container.

use listing::{bytes, hex};
use oracle::{Answer, Call, Outcome, Walk};

const TYPE_1: &str = "0001 02 01 0A000001 0A000001 80000001 1234";

/// A version 2 header of type 1 with this declared length.
fn router_header(length: u16) -> Vec<u8> {
    [hex(TYPE_1), length.to_be_bytes().to_vec()].concat()
}

/// The entries of that header at `p`, its object not among them.
fn router_header_entries(p: usize, length: u16) -> String {
    format!(
        "u16 0 {} {} 1\n u8 1 {} {} 2\n u8 2 {} {} 1\n ip4 3 {} {} 10.0.0.1\n \
         ip4 4 {} {} 10.0.0.1\n u32 5 {} {} 2147483649\n u16 6 {} {} 4660\n u16 7 {} {} {length}\n",
        p,
        p + 2,
        p + 2,
        p + 3,
        p + 3,
        p + 4,
        p + 4,
        p + 8,
        p + 8,
        p + 12,
        p + 12,
        p + 16,
        p + 16,
        p + 18,
        p + 18,
        p + 20
    )
}

/// A version 3 header of this LS type, all else zero but the length.
fn v3_header(ls_type: u16, length: u16) -> Vec<u8> {
    let [high, low] = ls_type.to_be_bytes();
    let mut header = bytes(20, 0);
    header[2..4].copy_from_slice(&[high, low]);
    header[18..20].copy_from_slice(&length.to_be_bytes());
    header
}

/// The entries of that header at 0.
fn v3_header_entries(ls_type: u16, length: u16) -> String {
    format!(
        "u16 0 0 2 0\n u16 1 2 4 {ls_type}\n u32 2 4 8 0\n ip4 3 8 12 0.0.0.0\n \
         u32 4 12 16 0\n u16 5 16 18 0\n u16 6 18 20 {length}\n"
    )
}

/// Runs a call at offset 0 and compares its strip and answer, for a buffer
/// that is larger than the strip.
fn check(
    version: u8,
    walk: Walk,
    count: u32,
    data: &[u8],
    expected: &str,
    records: u32,
    tail: u32,
) {
    let call = Call {
        version,
        walk,
        data,
        count,
        offset: 0,
    };
    let strip = listing::strip(expected);
    let answer = Answer {
        number: 0,
        length: strip.len() as u32,
        records,
        tail,
        block: 0,
    };
    let mut buffer = bytes(strip.len() + 3, 0xA5);
    assert_eq!(call.run().lend(&mut buffer), answer);
    assert_eq!(buffer, [strip, bytes(3, 0xA5)].concat());
}

/// An update's outer array of so many records, whose objects are given.
fn update(end: usize, records: u32, objects: &str, after: &str) -> String {
    format!("open 114 4 {end} {records}\n{objects}close\n{after}")
}

#[test]
fn worked_listing() {
    let data = hex("00 01 02 01 0A 00 00 01 0A 00 00 01 80 00 00 01 12 34 00 18 FF");
    let listing = "
        open 114 0 20 1
        open 112 0 20 8
        u16 0 0 2 1
        u8 1 2 3 2
        u8 2 3 4 1
        ip4 3 4 8 10.0.0.1
        ip4 4 8 12 10.0.0.1
        u32 5 12 16 2147483649
        u16 6 16 18 4660
        u16 7 18 20 24
        close
        close
        bytes 25 20 21";
    check(2, Walk::Headers, 0, &data, listing, 1, 1);
}

/// The same strip, as bytes.
#[test]
fn worked_listing_in_hexadecimal() {
    let data = hex("00 01 02 01 0A 00 00 01 0A 00 00 01 80 00 00 01 12 34 00 18 FF");
    let strip = hex("01 72 00000000 00000014 00000001
         01 70 00000000 00000014 00000008
         04 00 00000000 00000002 0001
         03 01 00000002 00000003 02
         03 02 00000003 00000004 01
         06 03 00000004 00000008 0A000001
         06 04 00000008 0000000C 0A000001
         05 05 0000000C 00000010 80000001
         04 06 00000010 00000012 1234
         04 07 00000012 00000014 0018
         02
         02
         08 19 00000014 00000015");
    assert_eq!(strip.len(), 140);
    let call = Call {
        version: 2,
        walk: Walk::Headers,
        data: &data,
        count: 0,
        offset: 0,
    };
    let expected = Outcome::Accepted {
        strip,
        records: 1,
        tail: 1,
        block: 0,
    };
    assert_eq!(call.run(), expected);
}

/// A count is that of the entries directly inside: an array or object among them
/// counts once, and so do TLVs, an unparsed or a raw body; closes and what stands
/// deeper do not, nor does the tail, which follows the array.
#[test]
fn counts_of_containers() {
    let opaque = "0001 02 0A 01000000 0A000001 80000001 1234 001C 0001 0004 0A000001";
    let body = "00 00 0001 0A000002 0A000003 01 02 000A 08 00 0014 10 00 001E EE";
    let raw = "0001 02 06 0A000001 0A000001 80000001 1234 0016 BEEF";
    let records = [
        hex(opaque),
        router_header(45),
        hex(body),
        hex(raw),
        router_header(20),
    ];
    let data = [hex("00000004"), records.concat(), bytes(3, 0)].concat();
    assert_eq!(data.len(), 122);
    let objects = format!(
        "open 113 4 32 11\n u16 0 4 6 1\n u8 1 6 7 2\n u8 2 7 8 10\n ip4 3 8 12 1.0.0.0\n \
         ip4 4 12 16 10.0.0.1\n u32 5 16 20 2147483649\n u16 6 20 22 4660\n u16 7 22 24 28\n \
         u8 8 8 9 1\n u32 9 9 12 0\n bytes 24 24 32\n close\n \
         open 113 32 77 16\n {}u8 10 52 53 0\n u8 11 52 53 0\n u8 12 52 53 0\n u8 13 52 53 0\n \
         u8 14 52 53 0\n u16 15 54 56 1\n open 16 56 76 1\n \
         open 96 56 76 6\n ip4 64 56 60 10.0.0.2\n ip4 65 60 64 10.0.0.3\n u8 66 64 65 1\n \
         u8 67 65 66 2\n u16 68 66 68 10\n open 69 68 76 2\n \
         open 97 68 72 2\n u8 81 68 69 8\n u32 82 70 72 20\n close\n \
         open 97 72 76 2\n u8 81 72 73 16\n u32 82 74 76 30\n close\n close\n close\n close\n \
         bytes 25 76 77\n close\n \
         open 113 77 99 9\n {}bytes 23 97 99\n close\n \
         open 113 99 119 8\n {}close\n ",
        router_header_entries(32, 45),
        router_header_entries(77, 22).replace("u8 2 80 81 1", "u8 2 80 81 6"),
        router_header_entries(99, 20)
    );
    let entries = update(119, 4, &objects, "bytes 25 119 122");
    check(2, Walk::Update, 4, &data, &entries, 4, 3);
}

/// P1, seen through function 3, whose prefix stands alone at 8.
#[test]
fn p1_octets_of_a_prefix_length() {
    for (length, octets) in [(0, 0), (1, 4), (32, 4), (33, 8), (128, 16)] {
        let mut body = bytes(8 + octets, 0x77);
        body[..8].copy_from_slice(&[0, 0, 0, 9, length, 0, 0, 0]);
        let data = [v3_header(3, 0), body].concat();
        let prefix = "77".repeat(octets) + &"00".repeat(16 - octets);
        let entries = format!(
            "{}u32 17 21 24 9\n u8 18 24 25 {length}\n u8 19 25 26 0\n ip6 20 28 {} {prefix}",
            v3_header_entries(3, 0),
            28 + octets
        );
        check(3, Walk::Lsa, 0, &data, &entries, 1, 0);
    }
    let data = [
        v3_header(3, 0),
        hex("00 000009 81 00 0000"),
        bytes(16, 0x77),
    ]
    .concat();
    let entries = format!("{}bytes 31 20 44", v3_header_entries(3, 0));
    check(3, Walk::Lsa, 0, &data, &entries, 1, 0);
}

#[test]
fn p2_empty_header_list() {
    for version in [2, 3] {
        check(
            version,
            Walk::Headers,
            0,
            &[],
            "open 114 0 0 0\n close",
            0,
            0,
        );
    }
    assert_eq!(listing::strip("open 114 0 0 0\n close").len(), 15);
}

#[test]
fn p3_nineteen_bytes_of_header_list() {
    for (version, unparsed) in [(2, 25), (3, 33)] {
        let entries = format!("open 114 0 0 0\n close\n bytes {unparsed} 0 19");
        assert_eq!(listing::strip(&entries).len(), 25);
        check(version, Walk::Headers, 0, &bytes(19, 1), &entries, 0, 19);
    }
}

#[test]
fn p4_two_headers() {
    let data = [router_header(24), router_header(36)].concat();
    let entries = format!(
        "open 114 0 40 2\n open 112 0 20 8\n {}close\n open 112 20 40 8\n {}close\n close",
        router_header_entries(0, 24),
        router_header_entries(20, 36)
    );
    assert_eq!(listing::strip(&entries).len(), 245);
    check(2, Walk::Headers, 0, &data, &entries, 2, 0);
}

#[test]
fn p5_update_of_three_bytes() {
    for version in [2, 3] {
        let call = Call {
            version,
            walk: Walk::Update,
            data: &[0; 3],
            count: 7,
            offset: 0,
        };
        let mut buffer = bytes(64, 0xA5);
        let refused = Answer {
            number: 4,
            ..Answer::default()
        };
        assert_eq!(call.run().lend(&mut buffer), refused);
        assert_eq!(buffer, bytes(64, 0xA5));
    }
}

#[test]
fn p6_update_without_room_for_a_record() {
    let entries = update(4, 0, "", "");
    assert_eq!(listing::strip(&entries).len(), 15);
    check(2, Walk::Update, 7, &[0, 0, 0, 7], &entries, 0, 0);
    check(3, Walk::Update, 7, &[0, 0, 0, 7], &entries, 0, 0);
}

#[test]
fn p7_declared_lengths_19_20_21() {
    let body = |length| [hex("00000001"), router_header(length)].concat();
    let none = update(4, 0, "", "bytes 25 4 24");
    check(2, Walk::Update, 1, &body(19), &none, 0, 20);
    check(2, Walk::Update, 1, &body(21), &none, 0, 20);
    let object = format!("open 113 4 24 8\n {}close\n", router_header_entries(4, 20));
    check(
        2,
        Walk::Update,
        1,
        &body(20),
        &update(24, 1, &object, ""),
        1,
        0,
    );
}

#[test]
fn p8_count_below_the_records() {
    let data = [hex("00000001"), router_header(20), router_header(20)].concat();
    let object = format!("open 113 4 24 8\n {}close\n", router_header_entries(4, 20));
    let entries = update(24, 1, &object, "bytes 25 24 44");
    check(2, Walk::Update, 1, &data, &entries, 1, 20);
}

#[test]
fn p9_link_with_255_tos_entries() {
    let link = hex("0A000002 0A000003 01 FF 000A");
    let tos: Vec<u8> = (1..=255).flat_map(|tos| [tos, 0xEE, 1, tos]).collect();
    let data = [router_header(1056), hex("00 00 0001"), link, tos].concat();
    assert_eq!(data.len(), 20 + 1036);
    let flags = "u8 10 20 21 0\n u8 11 20 21 0\n u8 12 20 21 0\n u8 13 20 21 0\n u8 14 20 21 0\n \
                 u16 15 22 24 1\n";
    let entries: String = (1..=255)
        .map(|tos| {
            let p = 36 + 4 * (tos - 1);
            let (metric, end) = (256 + tos, p + 4);
            format!(
                "open 97 {p} {end} 2\n u8 81 {p} {} {tos}\n u32 82 {} {end} {metric}\n close\n",
                p + 1,
                p + 2
            )
        })
        .collect();
    let whole = format!(
        "{}{flags}open 16 24 1056 1\n open 96 24 1056 6\n ip4 64 24 28 10.0.0.2\n \
         ip4 65 28 32 10.0.0.3\n u8 66 32 33 1\n u8 67 33 34 255\n u16 68 34 36 10\n \
         open 69 36 1056 255\n {entries}close\n close\n close",
        router_header_entries(0, 1056)
    );
    check(2, Walk::Lsa, 0, &data, &whole, 1, 0);
    let cut = format!(
        "{}{flags}open 16 24 24 0\n close\n bytes 25 24 1055",
        router_header_entries(0, 1056)
    );
    check(2, Walk::Lsa, 0, &data[..1055], &cut, 1, 1031);
}

#[test]
fn p10_version_3_external() {
    let body = hex("03 00000A 40 10 2001 20010DB8 00000001 \
         FE800000 00000000 00000000 00000002 DEADBEEF 00000063");
    assert_eq!(body.len(), 40);
    let data = [v3_header(0x4005, 60), body].concat();
    let whole = format!(
        "{}u8 7 20 21 3\n u8 10 20 21 0\n u8 12 20 21 1\n u8 13 20 21 1\n u32 17 21 24 10\n \
         u8 18 24 25 64\n u8 19 25 26 16\n u16 22 26 28 8193\n \
         ip6 20 28 36 20010db8000000010000000000000000\n \
         ip6 23 36 52 fe800000000000000000000000000002\n \
         u32 24 52 56 3735928559\n u32 25 56 60 99",
        v3_header_entries(0x4005, 60)
    );
    check(3, Walk::Lsa, 0, &data, &whole, 1, 0);
    let raw = format!("{}bytes 31 20 59", v3_header_entries(0x4005, 60));
    check(3, Walk::Lsa, 0, &data[..59], &raw, 1, 0);
}

#[test]
fn p11_version_3_extended_router() {
    let data = [v3_header(0xA021, 24), hex("15 000113")].concat();
    let raw = format!("{}bytes 31 20 23", v3_header_entries(0xA021, 24));
    check(3, Walk::Lsa, 0, &data[..23], &raw, 1, 0);
    let whole = format!(
        "{}u8 7 20 21 21\n u8 8 20 21 1\n u8 9 20 21 1\n u8 10 20 21 0\n u8 11 20 21 1\n \
         u32 14 21 24 275\n bytes 32 24 24",
        v3_header_entries(0xA021, 24)
    );
    check(3, Walk::Lsa, 0, &data, &whole, 1, 0);
}

#[test]
fn p12_router_lsa_without_a_body() {
    check(
        2,
        Walk::Lsa,
        0,
        &router_header(20),
        &router_header_entries(0, 20),
        1,
        0,
    );
}

/// The refusals in the order of the requirements' table, each with those after
/// it present as well.
#[test]
fn refusals_in_order() {
    let long = bytes(65_536, 0);
    let cases: [(u8, Walk, &[u8], u64, u8); 9] = [
        (1, Walk::Update, &long, u64::MAX, 1),
        (4, Walk::Lsa, &[], u64::MAX, 1),
        (2, Walk::Headers, &long, u64::MAX, 2),
        (3, Walk::Lsa, &long, 0, 2),
        (2, Walk::Update, &[], 4_294_901_761, 3),
        (3, Walk::Lsa, &[], u64::MAX, 3),
        (3, Walk::Headers, &[], 4_294_901_761, 3),
        (2, Walk::Lsa, &long[..19], 4_294_901_760, 4),
        (3, Walk::Update, &long[..3], 4_294_901_760, 4),
    ];
    for (version, walk, data, offset, number) in cases {
        let call = Call {
            version,
            walk,
            data,
            count: 1,
            offset,
        };
        assert_eq!(call.run(), Outcome::Refused(number), "{version} {walk:?}");
    }
}

/// Refusal 5 tells the length, keeps records and tail at zero and writes
/// nothing; one byte more is enough.
#[test]
fn refusal_5_and_the_full_buffer() {
    let call = Call {
        version: 3,
        walk: Walk::Headers,
        data: &[0; 19],
        count: 0,
        offset: 4_294_901_760,
    };
    let mut short = bytes(24, 0xA5);
    let refused = Answer {
        number: 5,
        length: 25,
        ..Answer::default()
    };
    assert_eq!(call.run().lend(&mut short), refused);
    assert_eq!(short, bytes(24, 0xA5));
    assert_eq!(refused.packed(), 0x05_0000_0019);

    let mut full = bytes(25, 0xA5);
    assert_eq!(call.run().lend(&mut full).packed(), 25);
    let expected = "open 114 4294901760 4294901760 0\n close\n bytes 33 4294901760 4294901779";
    assert_eq!(full, listing::strip(expected));
}
