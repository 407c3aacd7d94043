//! A metric of 24 one-bits is kind 9 in the strip and a number in the reference;
//! nothing else is. The listings are written by hand.

use listing::hex;
use oracle::unreachable::{as_number, is_unreachable};
use oracle::{Answer, Call, Outcome, Walk};
use packet_dissector_core::field::{Field, FieldDescriptor, FieldType, FieldValue};

static METRIC: FieldDescriptor = FieldDescriptor::new("metric", "Metric", FieldType::U32);
static OPAQUE_ID: FieldDescriptor = FieldDescriptor::new("opaque_id", "Opaque ID", FieldType::U32);
static OPTIONS: FieldDescriptor = FieldDescriptor::new("options", "Options", FieldType::U32);
static TAG: FieldDescriptor =
    FieldDescriptor::new("external_route_tag", "External Route Tag", FieldType::U32);

/// A field at 25 over so many bytes.
fn field(
    descriptor: &'static FieldDescriptor,
    value: FieldValue<'static>,
    bytes: usize,
) -> Field<'static> {
    Field {
        descriptor,
        value,
        range: 25..25 + bytes,
    }
}

#[test]
fn a_metric_of_24_one_bits_alone() {
    let number = FieldValue::U32;
    assert!(is_unreachable(&field(&METRIC, number(16_777_215), 3)));
    let fields = [
        // A bit that is not set, in each of the three bytes, and one too many.
        field(&METRIC, number(16_777_214), 3),
        field(&METRIC, number(0xFF_FEFF), 3),
        field(&METRIC, number(0xFE_FFFF), 3),
        field(&METRIC, number(u32::MAX), 3),
        field(&METRIC, number(0), 3),
        // Other values of 24 bits.
        field(&OPAQUE_ID, number(16_777_215), 3),
        field(&OPTIONS, number(16_777_215), 3),
        // A link's TOS metric, and a metric of 16 bits in the record too.
        field(&METRIC, number(65_535), 2),
        field(&METRIC, number(16_777_215), 2),
        field(&METRIC, FieldValue::U16(65_535), 2),
        field(&METRIC, FieldValue::U16(65_535), 3),
        // Values of 32 bits.
        field(&TAG, number(16_777_215), 4),
        field(&METRIC, number(16_777_215), 4),
        field(&METRIC, FieldValue::U64(16_777_215), 3),
        field(&METRIC, FieldValue::Bytes(&[0xFF; 3]), 3),
    ];
    for field in fields {
        let Field { value, range, .. } = &field;
        assert!(
            !is_unreachable(&field),
            "{} {value:?} {range:?}",
            field.name()
        );
    }
}

/// The way back changes kind 9 alone, and leaves id and range as they are.
#[test]
fn an_entry_as_a_number() {
    let of = |line: &str| as_number(&listing::strip(line));
    assert_eq!(
        of("never 19 25 28"),
        listing::strip("u32 19 25 28 16777215")
    );
    let end = "4294967292 4294967295";
    assert_eq!(
        of(&format!("never 82 {end}")),
        listing::strip(&format!("u32 82 {end} 16777215"))
    );
    for line in [
        "open 20 28 32 16777215",
        "close",
        "u8 81 28 29 255",
        "u16 68 34 36 65535",
        "u32 19 25 28 16777214",
        "ip4 21 28 32 255.255.255.255",
        "bytes 25 32 34",
        "u64 147 8 16 9",
    ] {
        assert_eq!(of(line), listing::strip(line), "{line}");
    }
}

/// A single LSA of this type at offset 0, all zeros before its body but for
/// the type and the Link State ID.
fn lsa(ls_type: u16, id: &str, body: &str) -> Vec<u8> {
    hex(&format!(
        "0000 {ls_type:04X} {id} 00000000 00000000 0000 0000 {body}"
    ))
}

fn call(version: u8, data: &[u8]) -> Call<'_> {
    Call {
        version,
        walk: Walk::Lsa,
        data,
        count: 0,
        offset: 0,
    }
}

fn strip(version: u8, data: &[u8]) -> Vec<u8> {
    match call(version, data).run() {
        Outcome::Accepted { strip, .. } => strip,
        other => panic!("{other:?}"),
    }
}

/// The strip with each entry of kind 9 as a number.
fn with_numbers(strip: &[u8]) -> Vec<u8> {
    let mut out = Vec::new();
    let mut rest = strip;
    while let [kind, ..] = rest {
        let (_, body) = listing::kind(*kind).expect("a kind");
        let (entry, after) = rest.split_at(1 + body);
        out.extend(as_number(entry));
        rest = after;
    }
    out
}

/// Checks the entries of a body both ways: as they are in the strip, and with
/// numbers as they are in the reference's record.
fn check(version: u8, ls_type: u16, body: &str, entries: &str) {
    let data = lsa(ls_type, "00000000", body);
    let strip = strip(version, &data);
    let header = if version == 2 { 100 } else { 90 };
    assert_eq!(strip[header..], listing::strip(entries), "{body}");

    // The same lines, with the number that the reference has.
    let number = |line: &str| match line.trim().strip_prefix("never ") {
        Some(rest) => format!("u32 {rest} 16777215\n"),
        None => format!("{line}\n"),
    };
    let numbers: String = entries.lines().map(number).collect();
    let back = with_numbers(&strip);
    assert_eq!(back[header..], listing::strip(&numbers), "{body}");
    assert_eq!(back[..header], strip[..header]);

    // The reference's record has that number there, and at no other metric.
    let call = call(version, &data);
    let record = call.record();
    let number = FieldValue::U32(16_777_215);
    let metrics = record.fields().iter().filter(|f| f.name() == "metric");
    let numbers = metrics.filter(|f| f.value == number);
    let ranges = numbers.map(|f| f.range.clone());
    let lines = entries.lines().map(str::trim);
    let expected = lines.filter_map(|line| {
        let mut words = line.strip_prefix("never ")?.split(' ').skip(1);
        let mut place = || words.next()?.parse().ok();
        Some(place()?..place()?)
    });
    assert!(ranges.eq(expected), "{body}");
}

#[test]
fn summaries() {
    let mask = "ip4 17 20 24 255.255.255.255";
    for ls_type in [3, 4] {
        let both = format!("{mask}\n never 19 25 28");
        check(2, ls_type, "FFFFFFFF FF FFFFFF", &both);
        check(
            2,
            ls_type,
            "FFFFFFFF 00 FFFFFF FFFFFF",
            &format!("{both}\n bytes 25 28 31"),
        );
        for (metric, number) in [
            ("FFFFFE", 16_777_214),
            ("FFFEFF", 16_776_959),
            ("FEFFFF", 16_711_679),
        ] {
            let cost = format!("{mask}\n u32 19 25 28 {number}");
            check(2, ls_type, &format!("FFFFFFFF FF {metric}"), &cost);
        }
        // The first and the last of three TOS entries; the metric is a cost.
        check(
            2,
            ls_type,
            "FFFFFFFF FF FFFFFE FF FFFFFF FF FFFEFF 08 FFFFFF",
            &format!(
                "{mask}\n u32 19 25 28 16777214\n open 20 28 40 3\n \
                 open 97 28 32 2\n u8 81 28 29 255\n never 82 29 32\n close\n \
                 open 97 32 36 2\n u8 81 32 33 255\n u32 82 33 36 16776959\n close\n \
                 open 97 36 40 2\n u8 81 36 37 8\n never 82 37 40\n close\n close"
            ),
        );
    }
}

#[test]
fn externals() {
    // The tags are 16,777,215 too, over four bytes.
    let fixed = "ip4 17 20 24 255.0.0.0\n u8 13 24 25 1\n never 19 25 28\n \
                 ip4 21 28 32 255.255.255.255\n u32 22 32 36 16777215";
    let body = "FF000000 80 FFFFFF FFFFFFFF 00FFFFFF";
    for ls_type in [5, 7] {
        check(2, ls_type, body, fixed);
        check(
            2,
            ls_type,
            &format!("{body} FF FFFFFF 00FFFFFF 00FFFFFF 7F FFFFFE FFFFFFFF FFFFFFFF FF"),
            &format!(
                "{fixed}\n open 20 36 60 2\n \
                 open 97 36 48 5\n u8 80 36 37 1\n u8 81 36 37 127\n never 82 37 40\n \
                 ip4 83 40 44 0.255.255.255\n u32 84 44 48 16777215\n close\n \
                 open 97 48 60 5\n u8 80 48 49 0\n u8 81 48 49 127\n u32 82 49 52 16777214\n \
                 ip4 83 52 56 255.255.255.255\n u32 84 56 60 4294967295\n close\n close\n \
                 bytes 25 60 61"
            ),
        );
    }
}

#[test]
fn version_3() {
    let none = "28 28 00000000000000000000000000000000";
    check(
        3,
        0x2003,
        "FF FFFFFF 00 FF FFFF",
        &format!("never 17 21 24\n u8 18 24 25 0\n u8 19 25 26 255\n ip6 20 {none}"),
    );
    // Options of all ones before the metric.
    check(
        3,
        0x2004,
        "FF FFFFFF FF FFFFFF FFFFFFFF",
        "u32 14 21 24 16777215\n never 17 25 28\n ip4 21 28 32 255.255.255.255",
    );
    check(
        3,
        0x2004,
        "FF FFFFFF FF FFFFFE FFFFFFFF",
        "u32 14 21 24 16777215\n u32 17 25 28 16777214\n ip4 21 28 32 255.255.255.255",
    );
    for ls_type in [0x4005, 0x2007] {
        check(
            3,
            ls_type,
            "01 FFFFFF 00 00 0000 00FFFFFF",
            &format!(
                "u8 7 20 21 1\n u8 10 20 21 0\n u8 12 20 21 0\n u8 13 20 21 1\n never 17 21 24\n \
                 u8 18 24 25 0\n u8 19 25 26 0\n u16 22 26 28 0\n ip6 20 {none}\n \
                 u32 24 28 32 16777215"
            ),
        );
    }
}

/// All ones where there is no 24-bit metric: the numbers stay.
#[test]
fn numbers_of_all_ones() {
    let entries = |version, ls_type, id, body| {
        let strip = strip(version, &lsa(ls_type, id, body));
        assert_eq!(with_numbers(&strip), strip);
        strip[if version == 2 { 100 } else { 90 }..].to_vec()
    };
    for ls_type in 9..=11 {
        let opaque = "u8 8 4 5 255\n u32 9 5 8 16777215\n bytes 23 20 23";
        let found = entries(2, ls_type, "FFFFFFFF", "FFFFFF");
        assert_eq!(found, listing::strip(opaque));
    }
    let router = "u8 10 20 21 0\n u8 11 20 21 0\n u8 12 20 21 0\n u8 13 20 21 0\n \
                  u8 14 20 21 0\n u16 15 22 24 1\n open 16 24 40 1\n open 96 24 40 6\n \
                  ip4 64 24 28 255.255.255.255\n ip4 65 28 32 255.255.255.255\n u8 66 32 33 255\n \
                  u8 67 33 34 1\n u16 68 34 36 65535\n open 69 36 40 1\n open 97 36 40 2\n \
                  u8 81 36 37 255\n u32 82 38 40 65535\n close\n close\n close\n close";
    let body = "00 00 0001 FFFFFFFF FFFFFFFF FF 01 FFFF FF FF FFFF";
    assert_eq!(entries(2, 1, "00000000", body), listing::strip(router));
    let router = "u8 7 20 21 0\n u8 8 20 21 0\n u8 9 20 21 0\n u8 10 20 21 0\n u8 11 20 21 0\n \
                  u32 14 21 24 16777215\n open 15 24 40 1\n open 96 24 40 5\n u8 64 24 25 255\n \
                  u16 65 26 28 65535\n u32 66 28 32 16777215\n u32 67 32 36 4294967295\n \
                  ip4 68 36 40 255.255.255.255\n close\n close";
    let body = "00 FFFFFF FF FF FFFF 00FFFFFF FFFFFFFF FFFFFFFF";
    assert_eq!(entries(3, 0x2001, "00000000", body), listing::strip(router));
    let prefixes = "u32 28 20 22 1\n u16 22 22 24 65535\n u32 25 24 28 16777215\n \
                    ip4 30 28 32 255.255.255.255\n open 29 32 36 1\n open 97 32 36 4\n \
                    u8 80 32 33 0\n u8 81 33 34 255\n u16 82 34 36 65535\n \
                    ip6 83 36 36 00000000000000000000000000000000\n close\n close";
    let body = "0001 FFFF 00FFFFFF FFFFFFFF 00 FF FFFF";
    assert_eq!(
        entries(3, 0x2009, "00000000", body),
        listing::strip(prefixes)
    );
}

/// The length needed is that of the strip with kind 9, four bytes less for each.
#[test]
fn the_length_needed() {
    let data = lsa(3, "00000000", "FFFFFF00 00 FFFFFF 00 FFFFFF 00 FFFFFF");
    let length = 100 + 14 + 10 + 14 + 2 * (14 + 11 + 10 + 1) + 1;
    let outcome = call(2, &data).run();
    for room in [0, length - 1] {
        let refused = Answer {
            number: 5,
            length: length as u32,
            ..Answer::default()
        };
        assert_eq!(outcome.answer(room), refused);
    }
    let mut buffer = vec![0xA5; length + 5];
    let answer = outcome.lend(&mut buffer[..length]);
    assert_eq!((answer.number, answer.length), (0, length as u32));
    assert_eq!(buffer[length..], [0xA5; 5]);
    assert_eq!(with_numbers(&buffer[..length]).len(), length + 3 * 4);
}
