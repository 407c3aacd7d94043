//! The comparison on its own: nothing is found in the oracle's own walks and
//! readings of blocks, and each of several wrong ones is found.

use compare::{Comparison, Difference, Walks, compare};
use inputs::{CLASSES, Class, Input, Places};
use oracle::unreachable::as_number;
use oracle::{Answer, Call, Outcome, Walk};

const SEED: u64 = 7;

/// The oracle with something done to its strip before it is lent out.
fn altered(call: Call<'_>, strip: &mut [u8], alter: fn(&Call<'_>, &mut [u8])) -> u64 {
    let mut outcome = call.run();
    if let Outcome::Accepted { strip, .. } = &mut outcome {
        alter(&call, strip);
    }
    outcome.lend(strip).packed()
}

/// A call of these parts.
fn call(version: u8, walk: Walk, data: &[u8], count: u32, offset: u64) -> Call<'_> {
    Call {
        version,
        walk,
        data,
        count,
        offset,
    }
}

/// Walks and readings that run `$run`, a function of a call and a buffer.
macro_rules! walks {
    ($run:expr) => {
        Walks {
            headers: |version, data, offset, strip| {
                $run(call(version, Walk::Headers, data, 0, offset), strip)
            },
            update: |version, data, count, offset, strip| {
                $run(call(version, Walk::Update, data, count, offset), strip)
            },
            lsa: |version, data, offset, strip| {
                $run(call(version, Walk::Lsa, data, 0, offset), strip)
            },
            lls: |data, offset, strip| $run(call(0, Walk::Lls, data, 0, offset), strip),
            auth_trailer: |data, offset, strip| {
                $run(call(0, Walk::AuthTrailer, data, 0, offset), strip)
            },
        }
    };
}

/// Where each entry of a strip starts.
fn places(strip: &[u8]) -> Vec<usize> {
    let lengths = [0, 14, 1, 11, 12, 14, 14, 26, 10, 10, 18];
    let mut places = Vec::new();
    let mut at = 0;
    while at < strip.len() {
        places.push(at);
        at += lengths[strip[at] as usize];
    }
    places
}

fn number(strip: &[u8], at: usize) -> u32 {
    u32::from_be_bytes(strip[at..at + 4].try_into().unwrap())
}

fn put(strip: &mut [u8], at: usize, number: u32) {
    strip[at..at + 4].copy_from_slice(&number.to_be_bytes());
}

/// The TOS metric of a router link read as 24 bits, from the zero byte on.
fn tos_metric_as_24_bits(call: &Call<'_>, strip: &mut [u8]) {
    for at in places(strip) {
        let (start, end) = match strip[at..] {
            [5, 82, ..] => (number(strip, at + 2), number(strip, at + 6)),
            _ => continue,
        };
        if call.version == 2 && end - start == 2 {
            let place = (u64::from(start) - call.offset) as usize;
            put(strip, at + 2, start - 1);
            strip[at + 11] = call.data[place - 1];
        }
    }
}

/// The end of the outer array left where it was first put.
fn outer_array_to_the_end(call: &Call<'_>, strip: &mut [u8]) {
    if strip[1] == 114 {
        put(strip, 6, (call.offset + call.data.len() as u64) as u32);
    }
}

/// A version 3 external tag sought before the forwarding address.
fn tag_before_forwarding_address(call: &Call<'_>, strip: &mut [u8]) {
    let places = places(strip);
    for pair in places.windows(2) {
        let (forwarding, tag) = (pair[0], pair[1]);
        let both = strip[forwarding..][..2] == [7, 23] && strip[tag..][..2] == [5, 24];
        if call.version == 3 && both {
            let start = number(strip, forwarding + 2);
            put(strip, tag + 2, start);
            put(strip, tag + 6, start + 4);
            let place = (u64::from(start) - call.offset) as usize;
            strip[tag + 10..tag + 14].copy_from_slice(&call.data[place..place + 4]);
        }
    }
}

/// What stands in a container: the entries directly inside, how many of them are
/// containers, and all entries at any depth.
#[derive(Default)]
struct Inside {
    entries: u32,
    containers: u32,
    nested: u32,
}

/// Another count in each open entry of a strip.
fn recounted(strip: &mut [u8], count: fn(&Inside) -> u32) {
    let mut open: Vec<(usize, Inside)> = Vec::new();
    for at in places(strip) {
        if strip[at] == 2 {
            let (at, inside) = open.pop().expect("a close has an open");
            put(strip, at + 10, count(&inside));
            if let Some((_, outer)) = open.last_mut() {
                outer.nested += inside.nested;
            }
            continue;
        }
        let container = strip[at] == 1;
        if let Some((_, outer)) = open.last_mut() {
            outer.entries += 1;
            outer.nested += 1;
            outer.containers += u32::from(container);
        }
        if container {
            open.push((at, Inside::default()));
        }
    }
}

fn count_with_closes(_: &Call<'_>, strip: &mut [u8]) {
    recounted(strip, |inside| inside.entries + inside.containers);
}

fn count_with_its_own_close(_: &Call<'_>, strip: &mut [u8]) {
    recounted(strip, |inside| inside.entries + 1);
}

fn count_at_any_depth(_: &Call<'_>, strip: &mut [u8]) {
    recounted(strip, |inside| inside.nested);
}

fn count_without_containers(_: &Call<'_>, strip: &mut [u8]) {
    recounted(strip, |inside| inside.entries - inside.containers);
}

/// The count of links or prefixes that the LSA has in its body.
fn count_of_a_list_as_declared(call: &Call<'_>, strip: &mut [u8]) {
    let mut declared = 0;
    for at in places(strip) {
        match (call.version, &strip[at..]) {
            (2, [4, 15, ..]) => declared = number(strip, at + 8) & 0xFFFF,
            (3, [5, 28, ..]) => declared = number(strip, at + 10),
            (2, [1, 16, ..]) | (3, [1, 29, ..]) => put(strip, at + 10, declared),
            _ => {}
        }
    }
}

/// The count of records that the update was asked for.
fn count_of_records_as_asked(call: &Call<'_>, strip: &mut [u8]) {
    if call.walk == Walk::Update {
        put(strip, 10, call.count);
    }
}

/// The oracle with each entry of its strip as another says; the length may
/// change.
fn by_entry(call: Call<'_>, strip: &mut [u8], other: fn(&[u8]) -> Vec<u8>) -> u64 {
    let mut outcome = call.run();
    if let Outcome::Accepted { strip, .. } = &mut outcome {
        let starts = places(strip);
        let ends = starts.iter().skip(1).copied().chain([strip.len()]);
        let entries = starts.iter().zip(ends).map(|(&at, end)| &strip[at..end]);
        *strip = entries.flat_map(other).collect();
    }
    outcome.lend(strip).packed()
}

/// Walks with each entry of their strips as `$other` says.
macro_rules! by_entry {
    ($other:expr) => {
        walks!(|call, strip: &mut [u8]| by_entry(call, strip, $other))
    };
}

/// How many bytes an entry's range has.
fn width(entry: &[u8]) -> u32 {
    number(entry, 6) - number(entry, 2)
}

/// An entry without its value, which says unreachable.
fn unreachable(entry: &[u8]) -> Vec<u8> {
    [&[9], &entry[1..10]].concat()
}

fn opaque_id_as_unreachable(entry: &[u8]) -> Vec<u8> {
    match entry {
        [5, 9, .., 0, 0xFF, 0xFF, 0xFF] => unreachable(entry),
        _ => entry.to_vec(),
    }
}

fn options_as_unreachable(entry: &[u8]) -> Vec<u8> {
    match entry {
        [5, 14, .., 0, 0xFF, 0xFF, 0xFF] => unreachable(entry),
        _ => entry.to_vec(),
    }
}

/// The tag of an external LSA of either version, and of a TOS entry.
fn tag_as_unreachable(entry: &[u8]) -> Vec<u8> {
    match entry {
        [5, 22 | 24 | 84, .., 0, 0xFF, 0xFF, 0xFF] => unreachable(entry),
        _ => entry.to_vec(),
    }
}

fn link_tos_metric_as_unreachable(entry: &[u8]) -> Vec<u8> {
    match entry {
        [5, 82, .., 0, 0, 0xFF, 0xFF] if width(entry) == 2 => unreachable(entry),
        _ => entry.to_vec(),
    }
}

/// The metric of a link of either version, and of a prefix.
fn metric_of_16_bits_as_unreachable(entry: &[u8]) -> Vec<u8> {
    match entry {
        [4, 65 | 68 | 82, .., 0xFF, 0xFF] => unreachable(entry),
        _ => entry.to_vec(),
    }
}

/// One bit of the 24 not looked at; 16,777,214 lacks bit 0.
fn one_bit_less_as_unreachable<const BIT: u32>(entry: &[u8]) -> Vec<u8> {
    match entry {
        [5, 17 | 19 | 82, ..] if number(entry, 10) == 0xFF_FFFF ^ 1 << BIT => unreachable(entry),
        _ => entry.to_vec(),
    }
}

fn tos_metric_as_a_number(entry: &[u8]) -> Vec<u8> {
    match entry {
        [9, 82, ..] => as_number(entry),
        _ => entry.to_vec(),
    }
}

fn unreachable_a_byte_short(entry: &[u8]) -> Vec<u8> {
    let mut entry = entry.to_vec();
    if entry[0] == 9 {
        let end = number(&entry, 6);
        put(&mut entry, 6, end - 1);
    }
    entry
}

/// The right strip, measured with four bytes too many for each value that is not
/// there.
fn unreachable_measured_as_a_number(call: Call<'_>, strip: &mut [u8]) -> u64 {
    let outcome = call.run();
    if let Outcome::Accepted { strip: whole, .. } = &outcome {
        let values = places(whole).into_iter().filter(|&at| whole[at] == 9);
        let needed = whole.len() + 4 * values.count();
        if strip.len() < needed {
            return 5 << 32 | needed as u64;
        }
    }
    outcome.lend(strip).packed()
}

/// Refusal 5 with the right answer, and the strip's front in the buffer.
fn refusal_5_writes(call: Call<'_>, strip: &mut [u8]) -> u64 {
    let outcome = call.run();
    let answer = outcome.lend(strip);
    if let Outcome::Accepted { strip: whole, .. } = &outcome
        && answer.number == 5
    {
        strip.copy_from_slice(&whole[..strip.len()]);
    }
    answer.packed()
}

/// The right strip and one zero byte after it, where there is room.
fn one_byte_past_the_strip(call: Call<'_>, strip: &mut [u8]) -> u64 {
    let answer = call.run().lend(strip);
    if let Some(byte) = strip.get_mut(answer.length as usize)
        && answer.number == 0
    {
        *byte = 0;
    }
    answer.packed()
}

/// Refusal 3 already at the largest offset.
fn refusal_3_too_early(call: Call<'_>, strip: &mut [u8]) -> u64 {
    if matches!(call.version, 2 | 3) && call.data.len() <= 65_535 && call.offset >= 4_294_901_760 {
        return 0x03_0000_0000;
    }
    call.run().lend(strip).packed()
}

/// The length field of an LLS block in bytes.
fn length_in_bytes(call: Call<'_>, strip: &mut [u8]) -> u64 {
    let mut data = call.data.to_vec();
    if let (Walk::Lls, Some([high, low])) = (call.walk, data.get_mut(2..4)) {
        let words = u16::from_be_bytes([*high, *low]) / 4;
        [*high, *low] = words.to_be_bytes();
    }
    let mut outcome = Call {
        data: &data,
        ..call
    }
    .run();
    if let (Walk::Lls, Outcome::Accepted { strip, .. }) = (call.walk, &mut outcome) {
        // The field itself is shown as it is.
        strip[36..38].copy_from_slice(&call.data[2..4]);
    }
    outcome.lend(strip).packed()
}

/// A block of up to `more` bytes beyond the data.
fn beyond_the_data(call: Call<'_>, strip: &mut [u8], more: usize) -> u64 {
    let longer = [call.data, &vec![0; more]].concat();
    let fits = call.data.len() >= 4 && longer.len() <= 65_535;
    let data = if fits { &longer } else { call.data };
    Call { data, ..call }.run().lend(strip).packed()
}

/// The low half of a sequence number alone.
fn sequence_number_as_32_bits(_: &Call<'_>, strip: &mut [u8]) {
    for at in places(strip) {
        if strip[at..].starts_with(&[10, 147]) {
            put(strip, at + 10, 0);
        }
    }
}

/// The security association read from the reserved bits before it.
fn sa_id_at_4(call: &Call<'_>, strip: &mut [u8]) {
    for at in places(strip) {
        if strip[at..].starts_with(&[4, 146]) {
            let start = call.offset as u32 + 4;
            put(strip, at + 2, start);
            put(strip, at + 6, start + 2);
            strip[at + 10..at + 12].copy_from_slice(&call.data[4..6]);
        }
    }
}

/// A range of TLVs that is left out where it is empty.
fn no_empty_tlvs(call: Call<'_>, strip: &mut [u8]) -> u64 {
    let mut outcome = call.run();
    if let Outcome::Accepted {
        strip, block: 4, ..
    } = &mut outcome
    {
        strip.drain(38..48);
        put(strip, 10, 2);
    }
    outcome.lend(strip).packed()
}

/// An absent block with the right answer, and a byte in the buffer.
fn absent_writes(call: Call<'_>, strip: &mut [u8]) -> u64 {
    let outcome = call.run();
    if let (Outcome::Absent, [first, ..]) = (&outcome, &mut *strip) {
        *first = 0;
    }
    outcome.lend(strip).packed()
}

/// An absent block refused for want of room.
fn absent_needs_room(call: Call<'_>, strip: &mut [u8]) -> u64 {
    match call.run() {
        Outcome::Absent if strip.len() < 49 => 0x05_0000_0031,
        outcome => outcome.lend(strip).packed(),
    }
}

/// Refusal 5 where there is also a 3.
fn refusal_5_before_3(call: Call<'_>, strip: &mut [u8]) -> u64 {
    let at_0 = Call { offset: 0, ..call }.run().answer(strip.len());
    match at_0.number {
        5 => at_0.packed(),
        _ => call.run().lend(strip).packed(),
    }
}

/// The answer without the block's length.
fn no_block_length(call: Call<'_>, strip: &mut [u8]) -> u64 {
    call.run().lend(strip).packed() & 0xFF_FFFF_FFFF
}

/// Refusal 5 with the block's length.
fn block_length_with_refusal_5(call: Call<'_>, strip: &mut [u8]) -> u64 {
    let outcome = call.run();
    match (outcome.lend(strip), outcome.answer(usize::MAX)) {
        (answer, Answer { block, .. }) if answer.number == 5 => Answer { block, ..answer }.packed(),
        (answer, _) => answer.packed(),
    }
}

/// Looks for a difference in one class.
fn find(walks: Walks, class: Class) -> Difference {
    *compare(walks, &[class], SEED, 20).expect_err("the difference")
}

#[test]
fn the_oracle_does_not_differ_from_itself() {
    let same = walks!(|call: Call<'_>, strip: &mut [u8]| call.run().lend(strip).packed());
    let classes = [&CLASSES[..], &[Class::Captured]].concat();
    let counts = compare(same, &classes, SEED, 100).unwrap_or_else(|d| panic!("{d}"));
    assert_eq!(counts.places.seen(), Places::all());
    assert_eq!(counts.classes.len(), classes.len());
    for (class, (inputs, calls)) in counts.classes {
        assert!(
            inputs >= 20 && calls >= inputs,
            "{class:?}: {inputs}, {calls}"
        );
        println!("{class:?}: {inputs} inputs, {calls} calls");
    }
}

#[test]
fn finds_a_tos_metric_as_24_bits() {
    let wrong = walks!(|call, strip: &mut [u8]| altered(call, strip, tos_metric_as_24_bits));
    let found = find(wrong, Class::Tos);
    // One link with one TOS entry; the header is 20 bytes, the fixed part 4.
    assert_eq!((found.input.version, found.input.data.len()), (2, 40));
    assert!(found.byte.is_some());
}

#[test]
fn finds_an_outer_array_to_the_end() {
    let wrong = walks!(|call, strip: &mut [u8]| altered(call, strip, outer_array_to_the_end));
    let found = find(wrong, Class::Truncated);
    // One byte of tail is enough.
    let least = if found.input.walk == Walk::Update {
        5
    } else {
        1
    };
    assert_eq!(found.input.data.len(), least);
    assert_eq!(found.byte.map(|(at, ..)| at), Some(9));
}

#[test]
fn finds_a_tag_before_the_forwarding_address() {
    let wrong =
        walks!(|call, strip: &mut [u8]| altered(call, strip, tag_before_forwarding_address));
    let found = find(wrong, Class::Flags);
    assert_eq!((found.input.version, found.input.data.len()), (3, 48));
}

#[test]
fn finds_a_refusal_5_that_writes() {
    let found = find(walks!(refusal_5_writes), Class::Structured);
    assert_eq!(found.expected, found.found);
    assert_eq!(found.byte.map(|(at, ..)| at), Some(0));
}

#[test]
fn finds_a_byte_past_the_strip() {
    let found = find(walks!(one_byte_past_the_strip), Class::Structured);
    let length = found.expected as u32;
    assert_eq!(found.byte.map(|(at, ..)| at), Some(length as isize));
    assert_eq!(found.byte.map(|(.., found)| found), Some(0));
}

#[test]
fn finds_a_refusal_too_early() {
    let found = find(walks!(refusal_3_too_early), Class::Offset);
    assert_eq!(found.input.offset, 4_294_901_760);
    assert_eq!(found.found, 0x03_0000_0000);
}

/// Where the difference is in the length needed: the version, the least data,
/// and the lengths expected and found.
fn lengths(found: &Difference) -> (u8, usize, u32, u32) {
    assert_eq!((found.expected >> 32, found.found >> 32), (5, 5));
    let Input { version, data, .. } = &found.input;
    (
        *version,
        data.len(),
        found.expected as u32,
        found.found as u32,
    )
}

/// A value that is missing makes the strip shorter: by four bytes, or by two.
#[test]
fn finds_numbers_as_unreachable() {
    // A container's open and close, and the fields around the number.
    let header_list = 15 + 15 + 100 + 11 + 14;
    let router_v3 = 90 + 5 * 11 + 14 + 15;
    let external_v2 = 100 + 14 + 11 + 14 + 14 + 14;
    let router_v2 = 100 + 5 * 11 + 12 + 15 + 15 + 14 + 14 + 11 + 11 + 12;
    let tos_entry = 15 + 15 + 11 + 14;
    let wrong = [
        (by_entry!(opaque_id_as_unreachable), (2, 20, header_list), 4),
        (by_entry!(options_as_unreachable), (3, 24, router_v3), 4),
        (by_entry!(tag_as_unreachable), (2, 36, external_v2), 4),
        (
            by_entry!(link_tos_metric_as_unreachable),
            (2, 40, router_v2 + tos_entry),
            4,
        ),
        (
            by_entry!(metric_of_16_bits_as_unreachable),
            (2, 36, router_v2),
            2,
        ),
    ];
    for (wrong, (version, least, expected), less) in wrong {
        let found = find(wrong, Class::Unreachable);
        assert_eq!(lengths(&found), (version, least, expected, expected - less));
    }
}

/// The fixed part of a summary: a header, a mask and a metric of kind 9.
const SUMMARY: u32 = 100 + 14 + 10;

#[test]
fn finds_a_cost_as_unreachable() {
    let wrong = [
        by_entry!(one_bit_less_as_unreachable::<0>),
        by_entry!(one_bit_less_as_unreachable::<8>),
        by_entry!(one_bit_less_as_unreachable::<16>),
    ];
    for wrong in wrong {
        let found = find(wrong, Class::Unreachable);
        assert_eq!(lengths(&found), (2, 28, SUMMARY + 4, SUMMARY));
    }
}

#[test]
fn finds_a_tos_metric_as_a_number() {
    let found = find(by_entry!(tos_metric_as_a_number), Class::Unreachable);
    let (version, least, expected, wrong) = lengths(&found);
    // One TOS entry.
    assert_eq!((version, least, wrong), (2, 32, expected + 4));
}

#[test]
fn finds_unreachable_a_byte_short() {
    let found = find(by_entry!(unreachable_a_byte_short), Class::Unreachable);
    assert_eq!(
        (found.expected, found.found),
        (SUMMARY.into(), SUMMARY.into())
    );
    assert_eq!(found.byte.map(|(at, ..)| at), Some(SUMMARY as isize - 1));
}

#[test]
fn finds_unreachable_measured_as_a_number() {
    let found = find(walks!(unreachable_measured_as_a_number), Class::Unreachable);
    assert_eq!(lengths(&found), (2, 28, SUMMARY, SUMMARY + 4));
}

/// The least data of a difference: the walk or reading, and how many bytes.
fn least(found: &Difference) -> (Walk, usize) {
    (found.input.walk, found.input.data.len())
}

/// The last byte of a count, from where its container opens.
const COUNT: isize = 13;

/// What the oracle has and what was found, in the last byte of the count of the
/// container that opens at this place.
fn counts(found: &Difference, open: isize) -> (u8, u8) {
    let (at, expected, wrong) = found.byte.expect("a byte");
    assert_eq!(at, open + COUNT, "{found}");
    (expected, wrong)
}

#[test]
fn finds_a_count_with_closes() {
    let wrong = walks!(|call, strip: &mut [u8]| altered(call, strip, count_with_closes));
    let found = find(wrong, Class::Truncated);
    // One header, whose close is counted in the list.
    assert_eq!(least(&found), (Walk::Headers, 20));
    assert_eq!(counts(&found, 0), (1, 2));
    let wrong = walks!(|call, strip: &mut [u8]| altered(call, strip, count_with_its_own_close));
    let found = find(wrong, Class::Truncated);
    assert_eq!(least(&found), (Walk::Headers, 0));
    assert_eq!(counts(&found, 0), (0, 1));
}

#[test]
fn finds_a_count_at_any_depth() {
    let wrong = walks!(|call, strip: &mut [u8]| altered(call, strip, count_at_any_depth));
    let found = find(wrong, Class::Truncated);
    assert_eq!(least(&found), (Walk::Headers, 20));
    // The header's fields beside it: of version 3, of version 2, or with an opaque id.
    let (expected, wrong) = counts(&found, 0);
    assert!(expected == 1 && [8, 9, 11].contains(&wrong), "{wrong}");
}

#[test]
fn finds_a_count_without_containers() {
    let wrong = walks!(|call, strip: &mut [u8]| altered(call, strip, count_without_containers));
    let found = find(wrong, Class::Truncated);
    assert_eq!(least(&found), (Walk::Headers, 20));
    assert_eq!(counts(&found, 0), (1, 0));
}

#[test]
fn finds_a_count_as_declared() {
    let wrong = walks!(|call, strip: &mut [u8]| altered(call, strip, count_of_a_list_as_declared));
    let found = find(wrong, Class::Count);
    // A Router-LSA with no room for a link, after its flags and its number of links.
    assert_eq!((found.input.version, found.input.data.len()), (2, 24));
    assert_eq!(counts(&found, 100 + 5 * 11 + 12), (0, 1));
    let wrong = walks!(|call, strip: &mut [u8]| altered(call, strip, count_of_records_as_asked));
    let found = find(wrong, Class::Count);
    // An update without an LSA, whose count says more.
    assert_eq!(found.input.data.len(), 4);
    assert_eq!(counts(&found, 0).0, 0);
}

#[test]
fn finds_a_length_in_bytes() {
    let found = find(walks!(length_in_bytes), Class::BlockLength);
    // A block of one word is missed.
    assert_eq!(least(&found), (Walk::Lls, 4));
    assert_eq!((found.expected, found.found), (0x05_0000_0031, 0));
}

#[test]
fn finds_a_block_beyond_the_data() {
    let one_word = walks!(|call, strip: &mut [u8]| beyond_the_data(call, strip, 4));
    let found = find(one_word, Class::BlockLength);
    assert_eq!(least(&found), (Walk::Lls, 4));
    assert_eq!(found.expected, 0);
    let one_byte = walks!(|call: Call<'_>, strip: &mut [u8]| match call.walk {
        Walk::AuthTrailer => beyond_the_data(call, strip, 1),
        _ => call.run().lend(strip).packed(),
    });
    let found = find(one_byte, Class::BlockLength);
    // The fixed part one byte short, whose field says 16.
    assert_eq!(least(&found), (Walk::AuthTrailer, 15));
}

#[test]
fn finds_a_sequence_number_as_32_bits() {
    let wrong = walks!(|call, strip: &mut [u8]| altered(call, strip, sequence_number_as_32_bits));
    let found = find(wrong, Class::Block);
    assert_eq!(found.input.walk, Walk::AuthTrailer);
    // After the object and three fields, the first byte of its value.
    let at = 14 + 3 * 12 + 10;
    assert_eq!(found.byte.map(|(at, _, found)| (at, found)), Some((at, 0)));
}

#[test]
fn finds_an_sa_id_at_4() {
    let wrong = walks!(|call, strip: &mut [u8]| altered(call, strip, sa_id_at_4));
    let found = find(wrong, Class::BlockLength);
    assert_eq!(least(&found), (Walk::AuthTrailer, 16));
    // The last byte of its start.
    assert_eq!(found.byte.map(|(at, ..)| at), Some(14 + 2 * 12 + 5));
}

#[test]
fn finds_missing_empty_tlvs() {
    let found = find(walks!(no_empty_tlvs), Class::BlockLength);
    assert_eq!(least(&found), (Walk::Lls, 4));
    assert_eq!(found.found, 0x05_0000_0027);
}

#[test]
fn finds_an_absent_block_that_writes() {
    let found = find(walks!(absent_writes), Class::BlockLength);
    assert_eq!((least(&found).1, found.expected, found.found), (0, 0, 0));
    assert_eq!(found.byte.map(|(at, ..)| at), Some(0));
}

#[test]
fn finds_an_absent_block_that_needs_room() {
    let found = find(walks!(absent_needs_room), Class::BlockLength);
    assert_eq!((found.room, found.expected), (0, 0));
}

#[test]
fn finds_a_refusal_5_before_3() {
    let found = find(walks!(refusal_5_before_3), Class::BlockLength);
    assert!(found.input.offset > 4_294_901_760);
    assert_eq!(found.expected, 0x03_0000_0000);
    assert_eq!((found.room, found.found >> 32), (0, 5));
}

#[test]
fn finds_a_missing_block_length() {
    let found = find(walks!(no_block_length), Class::Block);
    assert_eq!(found.byte, None);
    assert_eq!(found.expected as u32, found.found as u32);
    let found = find(walks!(block_length_with_refusal_5), Class::Block);
    assert_eq!(found.expected >> 32, 5);
}

/// What is printed for a difference has the call and its data in hexadecimal.
#[test]
fn prints_the_input() {
    let input = Input {
        class: Class::Random,
        version: 2,
        walk: Walk::Headers,
        data: vec![0xAB, 0x01],
        count: 0,
        offset: 24,
    };
    let mut comparison = Comparison::of(walks!(|_, _: &mut [u8]| 0x1234));
    let printed = comparison.input(&input).expect("a difference").to_string();
    let lines: Vec<&str> = printed.lines().collect();
    assert_eq!(lines[0], "class Random, version 2, walk Headers");
    assert_eq!(lines[1], "count 0, offset 24, room 0");
    assert_eq!(lines[2], "answer 0x1234, expected 0x500000019");
    assert_eq!(lines.last(), Some(&"data of 2 bytes: ab 01"));
}
