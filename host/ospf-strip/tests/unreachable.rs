//! Metrics that say unreachable: kind 9 stands where a 24-bit metric is all
//! ones, and nowhere else. The strips are written by hand, from the
//! requirements.

mod walk;

use inputs::{Class, Input};
use listing::hex;
use ospf_strip::{Buffer, Entry, Kind, Refusal, Strip, Value, Version};
use walk::run;

/// An LSA of this type with this body, and the listing of its header.
fn lsa(version: Version, ls_type: u16, body: &str) -> (Vec<u8>, String) {
    let body = hex(body);
    let length = 20 + body.len();
    let (head, listing) = match version {
        Version::V2 => (
            format!("0001 02 {ls_type:02X} 0A010000 0A000001 80000001 1234 {length:04X}"),
            format!(
                "u16 0 0 2 1\nu8 1 2 3 2\nu8 2 3 4 {ls_type}\nip4 3 4 8 10.1.0.0
                 ip4 4 8 12 10.0.0.1\nu32 5 12 16 2147483649\nu16 6 16 18 4660
                 u16 7 18 20 {length}\n"
            ),
        ),
        Version::V3 => (
            format!("0001 {ls_type:04X} 00000007 0A000001 80000001 1234 {length:04X}"),
            format!(
                "u16 0 0 2 1\nu16 1 2 4 {ls_type}\nu32 2 4 8 7\nip4 3 8 12 10.0.0.1
                 u32 4 12 16 2147483649\nu16 5 16 18 4660\nu16 6 18 20 {length}\n"
            ),
        ),
    };
    ([hex(&head), body].concat(), listing)
}

/// A listing with every start and end moved on.
fn moved(listing: &str, by: u64) -> String {
    let moved = |place: &str| place.parse::<u64>().expect("a place") + by;
    let lines = listing.lines().map(|line| {
        let words: Vec<&str> = line.split_whitespace().collect();
        match words.as_slice() {
            [kind, id, start, end, value @ ..] => {
                let (start, end) = (moved(start), moved(end));
                format!("{kind} {id} {start} {end} {}\n", value.join(" "))
            }
            _ => format!("{line}\n"),
        }
    });
    lines.collect()
}

/// How many entries of a listing stand in no container of it.
fn outermost(listing: &str) -> u32 {
    let (mut count, mut depth) = (0, 0);
    for word in listing.lines().filter_map(|l| l.split_whitespace().next()) {
        match word {
            "close" => depth -= 1,
            _ => count += u32::from(depth == 0),
        }
        depth += i32::from(word == "open");
    }
    count
}

/// The strip is the listed one, in one buffer that grows and in lent bytes that
/// are one too few, just enough and more.
fn check_strip(
    found: Result<Strip, Refusal>,
    lent: impl Fn(&mut [u8]) -> Result<usize, Refusal>,
    listing: &str,
) {
    let expected = listing::strip(listing);
    let needed = expected.len();
    assert_eq!(found.expect(listing).bytes(), expected, "{listing}");
    let mut room = vec![0xA5; needed + 3];
    assert_eq!(lent(&mut room[..needed - 1]), Err(Refusal::Room { needed }));
    assert!(room.iter().all(|&byte| byte == 0xA5), "{listing}");
    for length in [needed, needed + 3] {
        assert_eq!(lent(&mut room[..length]), Ok(needed));
        assert_eq!(room[..needed], expected, "{listing}");
        assert_eq!(room[needed..], [0xA5; 3]);
    }
}

/// The LSA's strip has the body's listing after the header's: alone at the
/// packet's front and far from it, and twice in an update.
fn check(version: Version, ls_type: u16, body: &str, listing: &str) {
    let (data, header) = lsa(version, ls_type, body);
    let listing = format!("{header}{listing}\n");
    let mut buffer = Buffer::new();
    for offset in [0, 24, 4_294_901_760] {
        let lent = |room: &mut [u8]| {
            let strip = ospf_strip::lsa(version, &data, offset, room)?;
            Ok(strip.bytes().len())
        };
        let found = buffer.lsa(version, &data, offset);
        check_strip(found, lent, &moved(&listing, offset));
    }

    let (length, count) = (data.len() as u64, outermost(&listing));
    let update = [&[0, 0, 0, 2], &data[..], &data].concat();
    let (second, end) = (4 + length, 4 + 2 * length);
    let outer = [
        format!("open 114 4 {end} 2\nopen 113 4 {second} {count}\n"),
        moved(&listing, 4),
        format!("close\nopen 113 {second} {end} {count}\n"),
        moved(&listing, second),
        "close\nclose".to_string(),
    ];
    let lent = |room: &mut [u8]| {
        let strip = ospf_strip::lsu_lsas(version, &update, 2, 0, room)?;
        Ok(strip.bytes().len())
    };
    let found = buffer.lsu_lsas(version, &update, 2, 0);
    check_strip(found, lent, &outer.concat());
}

/// Types 3 and 4: the metric alone, and before a TOS list.
#[test]
fn summaries() {
    for ls_type in [3, 4] {
        let check = |body, listing| check(Version::V2, ls_type, body, listing);
        check(
            "FFFF0000 00 FFFFFF",
            "ip4 17 20 24 255.255.0.0\nnever 19 25 28",
        );
        // What stands before the metric has no field.
        check(
            "FFFFFFFF FF FFFFFF",
            "ip4 17 20 24 255.255.255.255\nnever 19 25 28",
        );
        check(
            "FFFF0000 00 FFFFFF 08 FFFFFF",
            "ip4 17 20 24 255.255.0.0\nnever 19 25 28\nopen 20 28 32 1\nopen 97 28 32 2
             u8 81 28 29 8\nnever 82 29 32\nclose\nclose",
        );
        // First, in the middle and last of a list, and bytes after it.
        check(
            "FFFF0000 00 00000A 02 FFFFFF 04 FFFFFE 08 FFFFFF 10 FFFFFF 12 000000 FF FFFFFF FFFF",
            "ip4 17 20 24 255.255.0.0\nu32 19 25 28 10\nopen 20 28 52 6
             open 97 28 32 2\nu8 81 28 29 2\nnever 82 29 32\nclose
             open 97 32 36 2\nu8 81 32 33 4\nu32 82 33 36 16777214\nclose
             open 97 36 40 2\nu8 81 36 37 8\nnever 82 37 40\nclose
             open 97 40 44 2\nu8 81 40 41 16\nnever 82 41 44\nclose
             open 97 44 48 2\nu8 81 44 45 18\nu32 82 45 48 0\nclose
             open 97 48 52 2\nu8 81 48 49 255\nnever 82 49 52\nclose
             close\nbytes 25 52 54",
        );
    }
}

/// Types 5 and 7. A forwarding address of all ones is an address, and a tag that
/// has the same number is a number.
#[test]
fn externals() {
    for ls_type in [5, 7] {
        let check = |body, listing| check(Version::V2, ls_type, body, listing);
        check(
            "FFFF0000 80 FFFFFF 0A000009 00000007",
            "ip4 17 20 24 255.255.0.0\nu8 13 24 25 1\nnever 19 25 28\nip4 21 28 32 10.0.0.9
             u32 22 32 36 7",
        );
        check(
            "FFFF0000 00 FFFFFF FFFFFFFF 00FFFFFF 88 FFFFFF 0A000008 FFFFFFFF
             04 00000A 00000000 00000000 90 FFFFFF FFFFFFFF 00FFFFFF FFFFFF",
            "ip4 17 20 24 255.255.0.0\nu8 13 24 25 0\nnever 19 25 28
             ip4 21 28 32 255.255.255.255\nu32 22 32 36 16777215\nopen 20 36 72 3
             open 97 36 48 5\nu8 80 36 37 1\nu8 81 36 37 8\nnever 82 37 40
             ip4 83 40 44 10.0.0.8\nu32 84 44 48 4294967295\nclose
             open 97 48 60 5\nu8 80 48 49 0\nu8 81 48 49 4\nu32 82 49 52 10
             ip4 83 52 56 0.0.0.0\nu32 84 56 60 0\nclose
             open 97 60 72 5\nu8 80 60 61 1\nu8 81 60 61 16\nnever 82 61 64
             ip4 83 64 68 255.255.255.255\nu32 84 68 72 16777215\nclose
             close\nbytes 25 72 75",
        );
    }
}

/// Functions 3 and 4 of version 3. Options of all ones are a number.
#[test]
fn inter_area() {
    for ls_type in [0x2003, 0xE003] {
        check(
            Version::V3,
            ls_type,
            "00 FFFFFF 20 00 0000 20010DB8",
            "never 17 21 24\nu8 18 24 25 32\nu8 19 25 26 0
             ip6 20 28 32 20010db8000000000000000000000000",
        );
        check(
            Version::V3,
            ls_type,
            "FF FFFFFF 00 FF FFFF FFFFFF",
            "never 17 21 24\nu8 18 24 25 0\nu8 19 25 26 255
             ip6 20 28 28 00000000000000000000000000000000\nbytes 33 28 31",
        );
    }
    for ls_type in [0x2004, 0x0004] {
        check(
            Version::V3,
            ls_type,
            "FF FFFFFF FF FFFFFF 0A000009",
            "u32 14 21 24 16777215\nnever 17 25 28\nip4 21 28 32 10.0.0.9",
        );
        check(
            Version::V3,
            ls_type,
            "00 FFFFFF 00 FFFFFE FFFFFFFF",
            "u32 14 21 24 16777215\nu32 17 25 28 16777214\nip4 21 28 32 255.255.255.255",
        );
    }
}

/// Functions 5 and 7 of version 3, with all that may follow and with nothing.
#[test]
fn externals_of_version_3() {
    for ls_type in [0x4005, 0x2007] {
        check(
            Version::V3,
            ls_type,
            "00 FFFFFF 00 00 0000",
            "u8 7 20 21 0\nu8 10 20 21 0\nu8 12 20 21 0\nu8 13 20 21 0\nnever 17 21 24
             u8 18 24 25 0\nu8 19 25 26 0\nu16 22 26 28 0
             ip6 20 28 28 00000000000000000000000000000000",
        );
        check(
            Version::V3,
            ls_type,
            "07 FFFFFF 20 00 FFFF 20010DB8 FFFFFFFFFFFFFFFFFFFFFFFFFFFFFFFF 00FFFFFF 00FFFFFF",
            "u8 7 20 21 7\nu8 10 20 21 1\nu8 12 20 21 1\nu8 13 20 21 1\nnever 17 21 24
             u8 18 24 25 32\nu8 19 25 26 0\nu16 22 26 28 65535
             ip6 20 28 32 20010db8000000000000000000000000
             ip6 23 32 48 ffffffffffffffffffffffffffffffff\nu32 24 48 52 16777215
             u32 25 52 56 16777215",
        );
    }
}

/// A Router-LSA's metrics have 16 bits: those of links, and of their TOS entries,
/// which share id 82 with the 24-bit ones. The byte before is not looked at.
#[test]
fn metrics_of_16_bits() {
    check(
        Version::V2,
        1,
        "00 00 0001 0A000002 0A000003 03 02 FFFF FF FF FFFF 08 00 FFFE",
        "u8 10 20 21 0\nu8 11 20 21 0\nu8 12 20 21 0\nu8 13 20 21 0\nu8 14 20 21 0
         u16 15 22 24 1\nopen 16 24 44 1\nopen 96 24 44 6\nip4 64 24 28 10.0.0.2
         ip4 65 28 32 10.0.0.3\nu8 66 32 33 3\nu8 67 33 34 2\nu16 68 34 36 65535
         open 69 36 44 2\nopen 97 36 40 2\nu8 81 36 37 255\nu32 82 38 40 65535\nclose
         open 97 40 44 2\nu8 81 40 41 8\nu32 82 42 44 65534\nclose\nclose\nclose\nclose",
    );
    check(
        Version::V3,
        0x2001,
        "00 FFFFFF FF FF FFFF 00FFFFFF 00FFFFFF 0A000002",
        "u8 7 20 21 0\nu8 8 20 21 0\nu8 9 20 21 0\nu8 10 20 21 0\nu8 11 20 21 0
         u32 14 21 24 16777215\nopen 15 24 40 1\nopen 96 24 40 5\nu8 64 24 25 255
         u16 65 26 28 65535\nu32 66 28 32 16777215\nu32 67 32 36 16777215
         ip4 68 36 40 10.0.0.2\nclose\nclose",
    );
    check(
        Version::V3,
        0x2009,
        "0001 FFFF 00FFFFFF 0A000002 00 FF FFFF",
        "u32 28 20 22 1\nu16 22 22 24 65535\nu32 25 24 28 16777215\nip4 30 28 32 10.0.0.2
         open 29 32 36 1\nopen 97 32 36 4\nu8 80 32 33 0\nu8 81 33 34 255\nu16 82 34 36 65535
         ip6 83 36 36 00000000000000000000000000000000\nclose\nclose",
    );
}

/// Opaque ids and options of 24 bits, and a count: no metric.
#[test]
fn no_metrics() {
    for ls_type in [9, 10, 11] {
        let (mut data, header) = lsa(Version::V2, ls_type, "");
        data[4..8].copy_from_slice(&hex("01FFFFFF"));
        let header = header.replace("10.1.0.0", "1.255.255.255");
        let listing = format!("{header}u8 8 4 5 1\nu32 9 5 8 16777215\nbytes 24 20 20");
        let strip = Buffer::new()
            .lsa(Version::V2, &data, 0)
            .map(|strip| strip.bytes().to_vec());
        assert_eq!(strip, Ok(listing::strip(&listing)));
        let list = format!(
            "open 114 0 20 1\nopen 112 0 20 10\n{header}u8 8 4 5 1\nu32 9 5 8 16777215\nclose\nclose"
        );
        let strip = Buffer::new()
            .lsa_headers(Version::V2, &data, 0)
            .map(|strip| strip.bytes().to_vec());
        assert_eq!(strip, Ok(listing::strip(&list)));
    }
    check(
        Version::V3,
        0x2002,
        "FF FFFFFF",
        "u32 14 21 24 16777215\nopen 16 24 24 0\nclose",
    );
    check(
        Version::V3,
        0x0008,
        "FF FFFFFF FE800000000000000000000000000001 00FFFFFF",
        "u8 26 20 21 255\nu32 14 21 24 16777215\nip6 27 24 40 fe800000000000000000000000000001
         u32 28 40 44 16777215\nopen 29 44 44 0\nclose",
    );
}

/// Bodies of ones that have no layout, or are too short for theirs.
#[test]
fn raw_bodies() {
    let bodies = [
        (Version::V2, 3, "FFFFFFFF FF FFFF"),
        (Version::V2, 5, "FFFFFFFF FF FFFFFF FFFFFFFF FFFFFF"),
        (Version::V2, 6, "FFFFFFFF FF FFFFFF"),
        (Version::V3, 0x2003, "00 FFFFFF 81 00 0000 FFFFFFFF"),
        (Version::V3, 0x2003, "00 FFFFFF 20 00 0000 FFFFFF"),
        (Version::V3, 0x2004, "FF FFFFFF FF FFFFFF FFFFFF"),
        (Version::V3, 0x4005, "01 FFFFFF 00 00 0000 FFFFFF"),
    ];
    for (version, ls_type, body) in bodies {
        let id = if version == Version::V2 { 23 } else { 31 };
        let end = 20 + hex(body).len();
        check(version, ls_type, body, &format!("bytes {id} 20 {end}"));
    }
}

/// One bit that is not set makes a cost, at every place that has a metric.
#[test]
fn one_bit_less_is_a_cost() {
    for bit in 0..24 {
        let cost = 0xFF_FFFF - (1 << bit);
        check(
            Version::V2,
            3,
            &format!("FFFF0000 00 {cost:06X} 08 {cost:06X}"),
            &format!(
                "ip4 17 20 24 255.255.0.0\nu32 19 25 28 {cost}\nopen 20 28 32 1\nopen 97 28 32 2
                 u8 81 28 29 8\nu32 82 29 32 {cost}\nclose\nclose"
            ),
        );
        check(
            Version::V2,
            5,
            &format!("FFFF0000 FF {cost:06X} 00000000 00000000 7F {cost:06X} 00000000 00000000"),
            &format!(
                "ip4 17 20 24 255.255.0.0\nu8 13 24 25 1\nu32 19 25 28 {cost}\nip4 21 28 32 0.0.0.0
                 u32 22 32 36 0\nopen 20 36 48 1\nopen 97 36 48 5\nu8 80 36 37 0\nu8 81 36 37 127
                 u32 82 37 40 {cost}\nip4 83 40 44 0.0.0.0\nu32 84 44 48 0\nclose\nclose"
            ),
        );
        check(
            Version::V3,
            0x2003,
            &format!("00 {cost:06X} 00 00 0000"),
            &format!(
                "u32 17 21 24 {cost}\nu8 18 24 25 0\nu8 19 25 26 0
                 ip6 20 28 28 00000000000000000000000000000000"
            ),
        );
        check(
            Version::V3,
            0x2004,
            &format!("00 000000 00 {cost:06X} 00000000"),
            &format!("u32 14 21 24 0\nu32 17 25 28 {cost}\nip4 21 28 32 0.0.0.0"),
        );
        check(
            Version::V3,
            0x2007,
            &format!("00 {cost:06X} 00 00 0000"),
            &format!(
                "u8 7 20 21 0\nu8 10 20 21 0\nu8 12 20 21 0\nu8 13 20 21 0\nu32 17 21 24 {cost}
                 u8 18 24 25 0\nu8 19 25 26 0\nu16 22 26 28 0
                 ip6 20 28 28 00000000000000000000000000000000"
            ),
        );
    }
}

/// What an entry says: no value, the metric's name, and its three bytes.
#[test]
fn entries() {
    let (data, _) = lsa(Version::V2, 3, "FFFF0000 00 FFFFFF 08 00000A 10 FFFFFF");
    let mut buffer = Buffer::new();
    let strip = buffer.lsa(Version::V2, &data, 7).unwrap();
    assert_eq!((strip.records(), strip.tail()), (1, 0));
    let metrics: Vec<Entry> = strip
        .into_iter()
        .filter(|entry| entry.name() == Some("metric"))
        .collect();
    let values = metrics
        .iter()
        .map(|entry| (entry.is_unreachable(), entry.value()));
    let (none, cost) = ((true, None), (false, Some(Value::U32(10))));
    assert_eq!(values.collect::<Vec<_>>(), [none, cost, none]);
    let first = metrics[0];
    assert_eq!((first.kind(), first.id()), (Kind::Unreachable, Some(19)));
    assert_eq!(
        (first.range(), first.label()),
        (Some(32..35), Some("Metric"))
    );
    assert_eq!(first.part(&data, 7), Ok(&[0xFF; 3][..]));
    assert_eq!(
        (metrics[2].id(), metrics[2].range()),
        (Some(82), Some(40..43))
    );
    let shown = format!("{first:?}");
    assert!(
        shown.contains("Unreachable") && shown.contains("value: None"),
        "{shown}"
    );
    // No other entry says it.
    let others = strip.into_iter().filter(|entry| entry.is_unreachable());
    assert_eq!(others.count(), 2);
}

/// Whether the bytes at a range are ones alone.
fn ones(entry: &Entry, input: &Input) -> bool {
    let part = entry.part(&input.data, input.offset).expect("a part");
    part == [0xFF; 3]
}

/// In generated LSAs a metric of three bytes is unreachable exactly where they
/// are ones, and no other field is.
#[test]
fn generated_lsas() {
    let mut buffer = Buffer::new();
    let mut unreachable = [0; 3];
    let mut costs = 0;
    for class in [
        Class::Structured,
        Class::Tos,
        Class::Damaged,
        Class::Unreachable,
    ] {
        inputs::of_class(class, 10, 20, &mut |input| {
            for entry in run(&mut buffer, &input).into_iter().flatten() {
                let long = entry.range().is_some_and(|range| range.len() == 3);
                let place = [(2, 19), (2, 82), (3, 17)]
                    .iter()
                    .position(|&(version, id)| (input.version, entry.id()) == (version, Some(id)));
                match place.filter(|_| long) {
                    Some(place) if ones(&entry, &input) => {
                        assert!(entry.is_unreachable(), "{entry:?}, {input:?}");
                        unreachable[place] += 1;
                    }
                    Some(_) => {
                        assert_eq!(entry.kind(), Kind::U32, "{entry:?}, {input:?}");
                        costs += 1;
                    }
                    None => assert!(!entry.is_unreachable(), "{entry:?}, {input:?}"),
                }
            }
        });
    }
    assert!(unreachable.iter().all(|&n| n > 100), "{unreachable:?}");
    assert!(costs > 1_000, "{costs}");
}
