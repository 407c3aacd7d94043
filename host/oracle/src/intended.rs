//! Intended differences between the port and the reference (part 3 of
//! docs/DIFFERENCES.md): what the reference itself does in those places.

use std::panic::{AssertUnwindSafe, catch_unwind};

use packet_dissector_core::field::FieldValue;
use packet_dissector_core::packet::{DissectBuffer, Event};

use crate::ids::{FD_LLS, FD_OUTER};
use crate::{Call, Outcome, Walk, common, trailer, v2_lsa, v3_lsa};

fn call(version: u8, walk: Walk, data: &[u8]) -> Call<'_> {
    Call {
        version,
        walk,
        data,
        count: 1,
        offset: 0,
    }
}

/// Whether the reference panics on this data, which the refusals let not
/// through.
fn panics(version: u8, walk: Walk, data: &[u8]) -> bool {
    let call = call(version, walk, data);
    catch_unwind(AssertUnwindSafe(|| call.record().events().len())).is_err()
}

#[test]
fn refusal_4_stands_where_the_reference_panics() {
    for version in [2, 3] {
        for length in 0..=20 {
            let data = vec![0; length];
            assert_eq!(panics(version, Walk::Update, &data), length < 4, "{length}");
            assert_eq!(panics(version, Walk::Lsa, &data), length < 20, "{length}");
            assert!(!panics(version, Walk::Headers, &data));
            let lsa = call(version, Walk::Lsa, &data).run();
            assert_eq!(lsa == Outcome::Refused(4), length < 20);
        }
    }
}

#[test]
fn refusal_2_stands_where_the_reference_goes_on() {
    let data = vec![0; 65_540];
    let mut buf = DissectBuffer::new();
    let (object, push) = (&v3_lsa::FD_LSA_HEADER, v3_lsa::push_lsa_header_fields);
    common::push_lsa_headers(&mut buf, &FD_OUTER, &data, 0, object, push);
    let headers = buf.fields().iter().filter(|f| f.name() == "lsa_header");
    assert_eq!(headers.count(), 3_277);
    assert_eq!(call(3, Walk::Headers, &data).run(), Outcome::Refused(2));
}

#[test]
fn refusal_3_stands_where_a_place_needs_more_than_32_bits() {
    let data = vec![0; 65_535];
    for (offset, fits) in [(4_294_901_760, true), (4_294_901_761, false)] {
        let call = Call {
            offset,
            ..call(2, Walk::Headers, &data)
        };
        let end = call.record().fields().iter().map(|f| f.range.end).max();
        assert_eq!(end.is_some_and(|end| u32::try_from(end).is_ok()), fits);
        assert_eq!(call.run() == Outcome::Refused(3), !fits);
    }
}

/// An opaque LSA with a router address TLV and three bytes that are none. The
/// reference pushes an array with a TLV of three fields, then `unparsed`.
#[test]
fn tlvs_are_one_range() {
    let mut data = vec![0; 31];
    data[3] = 10;
    data[4] = 1;
    data[20..28].copy_from_slice(&[0, 1, 0, 4, 10, 0, 0, 1]);
    let call = call(2, Walk::Lsa, &data);
    let record = call.record();
    let names: Vec<&str> = record.fields()[10..].iter().map(|f| f.name()).collect();
    let pushed = [
        "tlvs",
        "tlv",
        "type",
        "length",
        "router_address",
        "unparsed",
    ];
    assert_eq!(names, pushed);
    assert_eq!(record.fields()[10].range, 20..28);
    assert_eq!(record.fields()[15].range, 28..31);

    let Outcome::Accepted { strip, tail, .. } = call.run() else {
        panic!("refused");
    };
    let range = [8, 24, 0, 0, 0, 20, 0, 0, 0, 31];
    assert_eq!(strip[strip.len() - 10..], range);
    assert_eq!((strip.len(), tail), (100 + 11 + 14 + 10, 0));
}

/// A summary whose metric is LSInfinity. The reference pushes a number over the
/// metric's three bytes; the strip has kind 9 over the same, and no value.
#[test]
fn ls_infinity_is_unreachable() {
    let data = listing::hex("0001 02 03 0A000001 0A000001 80000001 0000 001C FFFFFF00 00 FFFFFF");
    let call = call(2, Walk::Lsa, &data);
    let record = call.record();
    let metric = record.fields().last().expect("fields");
    assert_eq!((metric.name(), metric.range.clone()), ("metric", 25..28));
    assert_eq!(metric.value, FieldValue::U32(16_777_215));
    let Outcome::Accepted { strip, .. } = call.run() else {
        panic!("refused");
    };
    let entries = "ip4 17 20 24 255.255.255.0\n never 19 25 28";
    assert_eq!(strip[100..], listing::strip(entries));
}

/// The reference opens the outer array to the body's end and moves the end
/// later; an open entry has the final end.
#[test]
fn open_entries_have_the_final_end() {
    let data = [0; 10];
    let call = call(2, Walk::Update, &data);
    let events = [
        Event::Open(0),
        Event::Close(0),
        Event::Change(0),
        Event::Push(1),
    ];
    assert_eq!(call.record().events(), events);
    assert_eq!(call.record().fields()[0].range, 4..4);
    let Outcome::Accepted { strip, .. } = call.run() else {
        panic!("refused");
    };
    assert_eq!(strip[..14], [1, 114, 0, 0, 0, 4, 0, 0, 0, 4, 0, 0, 0, 0]);
}

/// `v2.rs` and `v3.rs` push `num_lsas` before they call; the strip starts
/// with the outer array, and the count is the argument, whatever the data say.
#[test]
fn num_lsas_is_not_in_the_strip() {
    let mut data = [0; 24];
    data[3] = 9;
    data[23] = 20;
    for (count, tail) in [(0, 20), (1, 0)] {
        let call = Call {
            count,
            ..call(3, Walk::Update, &data)
        };
        let record = call.record();
        assert!(std::ptr::eq(record.fields()[0].descriptor, &FD_OUTER));
        let Outcome::Accepted {
            records,
            tail: found,
            ..
        } = call.run()
        else {
            panic!("refused");
        };
        assert_eq!((records, found), (count, tail));
    }
}

/// What is left over after the outer array is pushed with the TLV module's
/// own descriptor, which is no row of an LSA table but has that row's name.
#[test]
fn unparsed_has_the_id_of_the_lsa_table() {
    let tables = [
        (2, v2_lsa::LSA_CHILD_FIELDS, 25),
        (3, v3_lsa::LSA_CHILD_FIELDS, 33),
    ];
    for (version, table, id) in tables {
        let data = [0; 1];
        let call = call(version, Walk::Headers, &data);
        let unparsed = call.record().fields()[1].descriptor;
        assert!(!std::ptr::eq(&table[id], unparsed));
        assert_eq!(table[id].name, unparsed.name);
        let Outcome::Accepted { strip, .. } = call.run() else {
            panic!("refused");
        };
        assert_eq!(strip[15..17], [8, id as u8]);
    }
}

/// An LLS block of two TLVs, of which the second does not fit. The reference
/// pushes an array with the first, then `unparsed`, both inside the block.
#[test]
fn tlvs_of_an_lls_block_are_one_range() {
    let mut data = [0; 20];
    data[3] = 5;
    data[4..8].copy_from_slice(&[0, 1, 0, 4]);
    data[12..16].copy_from_slice(&[0, 2, 0, 5]);
    let call = call(0, Walk::Lls, &data);
    let record = call.record();
    let names: Vec<&str> = record.fields()[3..].iter().map(|f| f.name()).collect();
    let pushed = [
        "tlvs",
        "tlv",
        "type",
        "length",
        "extended_options",
        "unparsed",
    ];
    assert_eq!(names, pushed);
    assert_eq!(record.fields()[3].range, 4..12);
    assert_eq!(record.fields()[8].range, 12..20);

    let Outcome::Accepted { strip, tail, .. } = call.run() else {
        panic!("no block");
    };
    let range = [8, 130, 0, 0, 0, 4, 0, 0, 0, 20, 2];
    assert_eq!(strip[strip.len() - 11..], range);
    assert_eq!((strip.len(), tail), (14 + 12 + 12 + 10 + 1, 0));
}

/// The reference reads a block in data of any length at any place.
#[test]
fn refusals_of_a_block_stand_where_the_reference_goes_on() {
    let mut data = vec![0; 65_536];
    data[3] = 16;
    let (most, above) = (4_294_901_760, 4_294_901_761);
    for walk in [Walk::Lls, Walk::AuthTrailer] {
        for (length, offset, number) in [(65_536, most, 2), (65_535, above, 3)] {
            let call = Call {
                offset,
                ..call(0, walk, &data[..length])
            };
            let block = if walk == Walk::Lls { 64 } else { 16 };
            let start = offset as usize;
            assert_eq!(call.record().fields()[0].range, start..start + block);
            assert_eq!(call.run(), Outcome::Refused(number));
        }
    }
}

/// Absent is the reference's own answer, and then it pushes nothing.
#[test]
fn absent_blocks_push_nothing() {
    let mut absent = [0; 2];
    for length in 0..=20 {
        for field in 0..=20 {
            let mut data = vec![0; length];
            data.iter_mut().skip(3).take(1).for_each(|b| *b = field);
            let mut buf = DissectBuffer::new();
            let consumed = trailer::push_lls(&mut buf, &data, 0, &FD_LLS);
            let answers = [
                (Walk::Lls, consumed == 0),
                (
                    Walk::AuthTrailer,
                    trailer::auth_trailer_len(&data).is_none(),
                ),
            ];
            for (seen, (walk, none)) in absent.iter_mut().zip(answers) {
                let call = call(0, walk, &data);
                assert_eq!(call.run() == Outcome::Absent, none);
                assert_eq!(call.record().events().is_empty(), none);
                *seen += usize::from(none);
            }
        }
    }
    // Found are one to five words, and 16 to 20 bytes, in as many or more.
    let lls = (4..=20).map(|length| length / 4).sum::<usize>();
    assert_eq!(absent, [21 * 21 - lls, 21 * 21 - 15]);
}

/// The caller in `v3.rs` takes a trailer without an AT-bit only where it ends
/// with the data, and reads on after a block; these readings do neither.
#[test]
fn bytes_after_a_block_are_not_looked_at() {
    let mut data = vec![0; 40];
    for walk in [Walk::Lls, Walk::AuthTrailer] {
        data[3] = if walk == Walk::Lls { 5 } else { 20 };
        let alone = call(0, walk, &data[..20]).run();
        assert!(matches!(alone, Outcome::Accepted { block: 20, .. }));
        assert_eq!(call(0, walk, &data).run(), alone);
    }
}
