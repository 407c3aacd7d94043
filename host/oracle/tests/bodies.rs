//! One LSA of each body that the requirements list in modules 4 and 5, with its
//! entries written by hand: the order, the widths, and which arrays are
//! opened when they are empty.

use listing::hex;
use oracle::{Call, Outcome, Walk};

/// Checks a single LSA of this LS type: its body's entries and its tail.
fn check(version: u8, ls_type: u16, body: &str, entries: &str, tail: u32) {
    let body = hex(body);
    let mut data = vec![0; 20];
    data[2..4].copy_from_slice(&ls_type.to_be_bytes());
    data.extend(&body);
    let call = Call {
        version,
        walk: Walk::Lsa,
        data: &data,
        count: 0,
        offset: 0,
    };
    let Outcome::Accepted {
        strip,
        records,
        tail: found,
        ..
    } = call.run()
    else {
        panic!("refused");
    };
    let header = if version == 2 { 100 } else { 90 };
    assert_eq!(strip[header..], listing::strip(entries));
    assert_eq!((records, found), (1, tail));
}

#[test]
fn v2_router_with_two_links() {
    check(
        2,
        1,
        "13 00 0002 0A000002 FFFFFF00 03 00 0001 0A000003 0A000004 02 01 0102 08 EE 0304 99",
        "u8 10 20 21 19\n u8 11 20 21 1\n u8 12 20 21 0\n u8 13 20 21 1\n u8 14 20 21 1\n \
         u16 15 22 24 2\n open 16 24 52 2\n \
         open 96 24 36 5\n ip4 64 24 28 10.0.0.2\n ip4 65 28 32 255.255.255.0\n u8 66 32 33 3\n \
         u8 67 33 34 0\n u16 68 34 36 1\n close\n \
         open 96 36 52 6\n ip4 64 36 40 10.0.0.3\n ip4 65 40 44 10.0.0.4\n u8 66 44 45 2\n \
         u8 67 45 46 1\n u16 68 46 48 258\n open 69 48 52 1\n open 97 48 52 2\n u8 81 48 49 8\n \
         u32 82 50 52 772\n close\n close\n close\n close\n bytes 25 52 53",
        1,
    );
}

#[test]
fn v2_network() {
    check(
        2,
        2,
        "FFFFFF00 0A000001 0A000002 77",
        "ip4 17 20 24 255.255.255.0\n open 18 24 32 2\n ip4 98 24 28 10.0.0.1\n \
         ip4 98 28 32 10.0.0.2\n close\n bytes 25 32 33",
        1,
    );
    check(2, 2, "FFFFFF", "bytes 23 20 23", 0);
}

#[test]
fn v2_summaries() {
    for ls_type in [3, 4] {
        let fixed = "ip4 17 20 24 255.255.0.0\n u32 19 25 28 66051\n";
        check(2, ls_type, "FFFF0000 EE 010203", fixed, 0);
        check(
            2,
            ls_type,
            "FFFF0000 EE 010203 88 040506 7777",
            &format!(
                "{fixed} open 20 28 32 1\n open 97 28 32 2\n u8 81 28 29 136\n \
                 u32 82 29 32 263430\n close\n close\n bytes 25 32 34"
            ),
            2,
        );
        check(2, ls_type, "FFFF0000 EE 0102", "bytes 23 20 27", 0);
    }
}

#[test]
fn v2_externals() {
    for ls_type in [5, 7] {
        let fixed = "ip4 17 20 24 255.0.0.0\n u8 13 24 25 1\n u32 19 25 28 20\n \
                     ip4 21 28 32 10.0.0.9\n u32 22 32 36 99\n";
        let body = "FF000000 85 000014 0A000009 00000063";
        check(2, ls_type, body, fixed, 0);
        check(
            2,
            ls_type,
            &format!("{body} 88 00001E 0A00000A 00000064 0102030405060708090A0B"),
            &format!(
                "{fixed} open 20 36 48 1\n open 97 36 48 5\n u8 80 36 37 1\n u8 81 36 37 8\n \
                 u32 82 37 40 30\n ip4 83 40 44 10.0.0.10\n u32 84 44 48 100\n close\n close\n \
                 bytes 25 48 59"
            ),
            11,
        );
        check(2, ls_type, &body[..body.len() - 2], "bytes 23 20 35", 0);
    }
}

#[test]
fn v3_router() {
    check(
        3,
        0x2001,
        "06 000033 01 EE 000A 00000005 00000006 0A000002 99",
        "u8 7 20 21 6\n u8 8 20 21 0\n u8 9 20 21 1\n u8 10 20 21 1\n u8 11 20 21 0\n \
         u32 14 21 24 51\n open 15 24 40 1\n open 96 24 40 5\n u8 64 24 25 1\n u16 65 26 28 10\n \
         u32 66 28 32 5\n u32 67 32 36 6\n ip4 68 36 40 10.0.0.2\n close\n close\n \
         bytes 33 40 41",
        1,
    );
    check(3, 0x2001, "06 0000", "bytes 31 20 23", 0);
}

#[test]
fn v3_network() {
    check(
        3,
        0x2002,
        "EE 000113 0A000001 0A000002",
        "u32 14 21 24 275\n open 16 24 32 2\n ip4 98 24 28 10.0.0.1\n ip4 98 28 32 10.0.0.2\n close",
        0,
    );
    check(
        3,
        0x2002,
        "EE 000113",
        "u32 14 21 24 275\n open 16 24 24 0\n close",
        0,
    );
}

#[test]
fn v3_inter_area() {
    check(
        3,
        0x2003,
        "EE 00000A 21 02 FFFF 20010DB8 80000000 77",
        "u32 17 21 24 10\n u8 18 24 25 33\n u8 19 25 26 2\n \
         ip6 20 28 36 20010db8800000000000000000000000\n bytes 33 36 37",
        1,
    );
    check(
        3,
        0x2004,
        "EE 000113 EE 00000A 0A000002 77",
        "u32 14 21 24 275\n u32 17 25 28 10\n ip4 21 28 32 10.0.0.2\n bytes 33 32 33",
        1,
    );
    check(3, 0x2004, "EE 000113 EE 00000A 0A0000", "bytes 31 20 31", 0);
}

/// The E bit is 0x04 here, and the tag stands without a forwarding address.
#[test]
fn v3_external_with_a_tag_alone() {
    for ls_type in [0x4005, 0x2007] {
        check(
            3,
            ls_type,
            "05 00000A 00 00 0000 00000063",
            "u8 7 20 21 5\n u8 10 20 21 1\n u8 12 20 21 0\n u8 13 20 21 1\n u32 17 21 24 10\n \
             u8 18 24 25 0\n u8 19 25 26 0\n u16 22 26 28 0\n \
             ip6 20 28 28 00000000000000000000000000000000\n u32 24 28 32 99",
            0,
        );
    }
}

/// A link LSA's entries have no metric; an intra-area prefix's have one.
#[test]
fn v3_prefix_lists() {
    check(
        3,
        0x0008,
        "01 000013 FE800000 00000000 00000000 00000001 00000001 20 02 EEEE 20010DB8",
        "u8 26 20 21 1\n u32 14 21 24 19\n ip6 27 24 40 fe800000000000000000000000000001\n \
         u32 28 40 44 1\n open 29 44 52 1\n open 97 44 52 3\n u8 80 44 45 32\n u8 81 45 46 2\n \
         ip6 83 48 52 20010db8000000000000000000000000\n close\n close",
        0,
    );
    check(
        3,
        0x2009,
        "0001 2001 00000007 0A000001 20 02 000A 20010DB8 00",
        "u32 28 20 22 1\n u16 22 22 24 8193\n u32 25 24 28 7\n ip4 30 28 32 10.0.0.1\n \
         open 29 32 40 1\n open 97 32 40 4\n u8 80 32 33 32\n u8 81 33 34 2\n u16 82 34 36 10\n \
         ip6 83 36 40 20010db8000000000000000000000000\n close\n close\n bytes 33 40 41",
        1,
    );
}

/// The extended LSAs and those of TLVs alone; leftovers are no tail.
#[test]
fn v3_tlv_bodies() {
    check(
        3,
        0xA022,
        "EE 000113 010203",
        "u32 14 21 24 275\n bytes 32 24 27",
        0,
    );
    check(
        3,
        0x8028,
        "01 000113",
        "u8 26 20 21 1\n u32 14 21 24 275\n bytes 32 24 24",
        0,
    );
    check(
        3,
        0xA029,
        "EEEE 2001 00000007 0A000001 01",
        "u16 22 22 24 8193\n u32 25 24 28 7\n ip4 30 28 32 10.0.0.1\n bytes 32 32 33",
        0,
    );
    check(3, 0xA029, "EEEE 2001 00000007 0A0000", "bytes 31 20 31", 0);
    for function in [12, 35, 36, 37, 39, 42] {
        check(3, 0xA000 | function, "", "bytes 32 20 20", 0);
        check(3, 0xA000 | function, "01", "bytes 32 20 21", 0);
    }
    for function in [0, 6, 10, 11, 13, 32, 38, 43] {
        check(3, 0xA000 | function, "", "", 0);
        check(3, 0xA000 | function, "01", "bytes 31 20 21", 0);
    }
}
