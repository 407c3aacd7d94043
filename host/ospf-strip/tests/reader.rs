//! Three readers of strips beside each other: the proved step, this crate's
//! entries, and the inline functions of include/ospf.h. On the strips of the
//! walks and the blocks and on damaged ones they give the same entries, the same end, and
//! the same refusal at the same place.

mod lines;
mod walk;

use c_reader::Step;
use inputs::{Class, Rng};
use lines::line;
use ospf_strip::Kind::{self, Bytes, Close, Ipv4, Ipv6, Open, U8, U16, U32, U64, Unreachable};
use ospf_strip::{Buffer, Entry, Strip, Version, exports};
use walk::run;

/// The places of the entries by the proved step, and what stands after them:
/// the number 0 at the end, or a refusal's.
fn proved(bytes: &[u8]) -> (Vec<usize>, usize, u8) {
    let (mut places, mut place) = (Vec::new(), 0);
    loop {
        match exports::unpack(exports::ospf_strip_step(bytes, place)) {
            (number, 0) => return (places, place, number),
            (_, length) => {
                places.push(place);
                place += length as usize;
            }
        }
    }
}

/// An entry's value as C has it.
fn halves(entry: &Entry) -> (u64, u64) {
    let bits = entry.value().map_or(0, u128::from);
    ((bits >> 64) as u64, bits as u64)
}

/// All readers on these bytes; how many entries there are, and the refusal.
fn compare(version: Version, bytes: &[u8]) -> (usize, u8) {
    let (places, place, number) = proved(bytes);
    match Strip::from_bytes(version, bytes) {
        Ok(_) => assert_eq!((place, number), (bytes.len(), 0)),
        Err(damage) => assert_eq!((damage.place(), damage.number()), (place, number)),
    }
    // The entries up to there, one after another and at once.
    let strip = Strip::from_bytes(version, &bytes[..place]).expect("whole entries");
    let entries: Vec<Entry> = strip.into_iter().collect();
    let mut folded = Vec::new();
    (&strip).into_iter().for_each(|entry| folded.push(entry));
    assert_eq!(folded, entries);
    let mut ended = strip.entries().skip(entries.len());
    assert_eq!((ended.next(), ended.next()), (None, None));
    assert_eq!(entries.len(), places.len());

    let (c, refused) = c_reader::next_all(bytes);
    assert_eq!((c.len(), refused), (places.len(), number));
    for (i, (entry, c)) in entries.iter().zip(&c).enumerate() {
        let next = places.get(i + 1).copied().unwrap_or(place);
        // Written again by another program, an entry is its bytes: and the
        // proved step reads those as that entry.
        let written = listing::strip(&line(entry));
        assert_eq!(written, bytes[places[i]..next]);
        let range = entry.range().unwrap_or_default();
        let expected = c_reader::Entry {
            kind: entry.kind() as u8,
            id: entry.id().unwrap_or_default(),
            start: range.start,
            end: range.end,
            value: halves(entry),
            count: entry.count().unwrap_or_default(),
            next,
        };
        assert_eq!(*c, expected);
    }
    (places.len(), number)
}

/// The step in C at every place, entries or not, and at some beyond.
fn compare_places(bytes: &[u8]) {
    let last = bytes.len() + 2;
    for place in (0..=last).chain([usize::MAX - 30, usize::MAX]) {
        let expected = match exports::unpack(exports::ospf_strip_step(bytes, place)) {
            (0, 0) => Err(0),
            (0, length) => Ok(place + length as usize),
            (number, _) => Err(number),
        };
        let found = match c_reader::step(bytes, place) {
            Step::Entry(entry) => Ok(entry.next),
            Step::End => Err(0),
            Step::Refused(number) => Err(number),
        };
        assert_eq!(found, expected, "{bytes:?} at {place}");
    }
}

#[test]
fn strips_of_the_walks() {
    let mut buffer = Buffer::new();
    let mut entries = 0;
    for class in [
        Class::Structured,
        Class::Tos,
        Class::Prefix,
        Class::Damaged,
        Class::Large,
        Class::Block,
        Class::Unreachable,
    ] {
        inputs::of_class(class, 8, 20, &mut |input| {
            if let Ok(strip) = run(&mut buffer, &input) {
                let (found, number) = compare(strip.version(), strip.bytes());
                assert_eq!(number, 0);
                entries += found;
            }
        });
    }
    assert!(entries > 500_000, "{entries}");
}

#[test]
fn strips_of_the_captures() {
    let mut buffer = Buffer::new();
    let mut strips = 0;
    for (_, file) in captures::published().expect("the published captures") {
        for input in captures::inputs(&file) {
            if let Ok(strip) = run(&mut buffer, &input) {
                assert_eq!(compare(strip.version(), strip.bytes()).1, 0);
                strips += 1;
            }
        }
    }
    assert!(strips > 400, "{strips}");
}

/// A strip with a byte changed, left out or added, cut, or with some bytes
/// at random.
fn damage(rng: &mut Rng, strip: &[u8]) -> Vec<u8> {
    let mut bytes = strip.to_vec();
    let at = rng.below(bytes.len());
    match rng.below(5) {
        0 => bytes[at] = rng.byte(),
        1 => bytes[at] = rng.below(12) as u8,
        2 => bytes.truncate(at),
        3 => {
            bytes.remove(at);
        }
        _ => bytes.insert(at, rng.below(12) as u8),
    }
    bytes
}

#[test]
fn damaged_strips() {
    let rng = &mut Rng::new(9);
    let mut buffer = Buffer::new();
    let mut numbers = [0; 9];
    for class in [Class::Structured, Class::Block] {
        inputs::of_class(class, 9, 5, &mut |input| {
            let strip = match run(&mut buffer, &input) {
                Ok(strip) if !strip.bytes().is_empty() => strip,
                _ => return,
            };
            for _ in 0..5 {
                let bytes = damage(rng, strip.bytes());
                let (_, number) = compare(strip.version(), &bytes);
                numbers[usize::from(number)] += 1;
            }
            compare_places(&damage(rng, strip.bytes()));
        });
    }
    assert!(numbers[0] > 100, "{numbers:?}");
    assert!(numbers[7] > 100 && numbers[8] > 100, "{numbers:?}");
}

/// Short strips: every kind byte, with every number of bytes after it.
#[test]
fn short_strips() {
    for kind in 0..=255 {
        for after in 0..30 {
            let bytes = [vec![kind], vec![kind; after]].concat();
            compare(Version::V3, &bytes);
            compare_places(&bytes);
        }
    }
    assert_eq!(compare(Version::V2, &[]), (0, 0));
}

/// A strip of entries of these kinds, all else at random.
fn strip_of(rng: &mut Rng, kinds: impl IntoIterator<Item = u8>) -> Vec<u8> {
    let mut bytes = Vec::new();
    for kind in kinds {
        bytes.push(kind);
        bytes.extend(rng.bytes(listing::kind(kind).expect("a kind").1));
    }
    bytes
}

/// Entries chosen at random, in any order: no walk's strip, and well formed.
#[test]
fn any_order_of_entries() {
    let rng = &mut Rng::new(11);
    for _ in 0..2_000 {
        let count = rng.below(30);
        let mut kind = || listing::KINDS[rng.below(listing::KINDS.len())].0;
        let kinds: Vec<u8> = (0..count).map(|_| kind()).collect();
        assert_eq!(compare(Version::V2, &strip_of(rng, kinds)).1, 0);
    }
}

/// What the layouts have in a row: the headers and links of both versions, TOS
/// metrics of a link and of an external, a prefix, the blocks; and unreachable
/// metrics with what stands around them.
const ROWS: [&[Kind]; 16] = [
    &[Open, U16, U8, U8, Ipv4, Ipv4, U32, U16, U16, Close],
    &[Open, U16, U16, U32, Ipv4, U32, U16, U16, Close],
    &[Open, Ipv4, Ipv4, U8, U8, U16, Close],
    &[Open, U8, U16, U32, U32, Ipv4, Close],
    &[Open, U8, U32, Close],
    &[Open, U8, U8, U32, Ipv4, U32, Close],
    &[Open, U8, U8, U16, Ipv6, Close],
    &[Open, U16, U16, Bytes, Close],
    &[Open, U16, U16, U16, U64, Bytes, Close],
    &[Open, U8, Unreachable, Close],
    &[Open, U8, U8, Unreachable, Ipv4, U32, Close],
    &[Ipv4, Unreachable, Open, Open, U8, U32, Close],
    &[Ipv4, U8, Unreachable, Ipv4, U32, Close],
    &[U16, Unreachable, U8, U8, Ipv6, Close],
    &[U16, U32, Unreachable, Ipv4, Close],
    &[U8, U8, U8, Unreachable, U8, U8, U16, Ipv6, Close],
];

/// Each row cut after every entry, at every distance from the strip's end: so
/// that `fold` takes it as a whole, in parts, and entry by entry.
#[test]
fn rows_near_the_end() {
    let rng = &mut Rng::new(12);
    for row in ROWS {
        for (cut, closes) in (1..=row.len()).flat_map(|n| (0..100).map(move |c| (n, c))) {
            let kinds = row[..cut].iter().chain(vec![&Close; closes]);
            let bytes = strip_of(rng, kinds.map(|&kind| kind as u8));
            assert_eq!(compare(Version::V3, &bytes), (cut + closes, 0));
        }
    }
}
