//! The reader of include/ospf.h against strips written by `listing`.

use c_reader::{Entry, Step, next_all, read_all, step};

/// A kind's entry as it is listed, and as it must be read, with a next place
/// as at place 0.
fn listed(kind: u8, id: u8, start: u32, end: u32) -> (String, Entry) {
    let (word, body) = listing::kind(kind).expect("a kind");
    let (text, value) = match word {
        "u8" => (" 254", (0, 254)),
        "u16" => (" 65244", (0, 65_244)),
        "open" => (" 4275878552", (0, 0)),
        "u32" => (" 4275878552", (0, 4_275_878_552)),
        "ip4" => (" 254.220.186.152", (0, 0xFEDC_BA98)),
        "ip6" => (
            " FEDCBA98765432100123456789ABCDEF",
            (0xFEDC_BA98_7654_3210, 0x0123_4567_89AB_CDEF),
        ),
        "u64" => (" 18364758544493064720", (0, 0xFEDC_BA98_7654_3210)),
        _ => ("", (0, 0)),
    };
    let mut entry = Entry {
        kind,
        id,
        start,
        end,
        value,
        count: 0,
        next: 1 + body,
    };
    if word == "close" {
        (entry.id, entry.start, entry.end) = (0, 0, 0);
        return (word.to_string(), entry);
    }
    if word == "open" {
        entry.count = 4_275_878_552;
    }
    (format!("{word} {id} {start} {end}{text}"), entry)
}

/// The kinds by their numbers.
fn kinds() -> impl Iterator<Item = u8> {
    listing::KINDS.into_iter().map(|(kind, _, _)| kind)
}

/// Every kind, at ids and places of all bytes.
fn entries() -> Vec<(Vec<u8>, Entry)> {
    let places = [(0, 0, 0), (25, 20, 21), (114, 0x0102_0304, 0x0506_0708)];
    let places = [places.as_slice(), &[(255, 0xFFFE_FDFC, 0xFBFA_F9F8)]].concat();
    let all = kinds().flat_map(|kind| places.iter().map(move |&(id, s, e)| listed(kind, id, s, e)));
    all.map(|(line, entry)| (listing::strip(&line), entry))
        .collect()
}

/// What reading adds up for an entry.
fn sum_of(entry: &Entry) -> u64 {
    let range = u64::from(entry.id) + u64::from(entry.start) + u64::from(entry.end);
    range
        .wrapping_add(entry.value.0)
        .wrapping_add(entry.value.1)
        .wrapping_add(entry.count.into())
}

#[test]
fn every_kind() {
    for (bytes, entry) in entries() {
        assert_eq!(bytes.len(), entry.next);
        assert_eq!(step(&bytes, 0), Step::Entry(entry));
        // The same between other bytes.
        let strip = [vec![8; 3], bytes, vec![7; 3]].concat();
        let next = entry.next + 3;
        assert_eq!(step(&strip, 3), Step::Entry(Entry { next, ..entry }));
    }
}

#[test]
fn every_cut() {
    for (bytes, _) in entries() {
        for length in 1..bytes.len() {
            assert_eq!(step(&bytes[..length], 0), Step::Refused(8), "{bytes:?}");
            let strip = [&[2; 40], &bytes[..length]].concat();
            assert_eq!(step(&strip, 40), Step::Refused(8), "{bytes:?}");
            check_whole(&strip, &[listed(2, 0, 0, 0).1; 40], 8);
        }
    }
}

#[test]
fn unknown_kinds() {
    for kind in (0..=255).filter(|&kind| listing::kind(kind).is_none()) {
        for after in [0, 1, 12, 25, 26, 60] {
            let strip = [vec![2, kind], vec![1; after]].concat();
            assert_eq!(step(&strip, 1), Step::Refused(7), "{kind}");
            check_whole(&strip, &[listed(2, 0, 0, 0).1], 7);
        }
    }
}

#[test]
fn the_end_and_beyond() {
    let strip = listing::strip("u16 6 16 18 4660");
    for length in [0, strip.len()] {
        let strip = &strip[..length];
        assert_eq!(step(strip, length), Step::End);
        for place in [length + 1, length + 2, usize::MAX - 1, usize::MAX] {
            assert_eq!(step(strip, place), Step::Refused(6), "{place}");
        }
    }
    check_whole(&[], &[], 0);
}

/// A whole strip is read as these entries, each with any next place, up to a
/// refusal or 0.
fn check_whole(strip: &[u8], entries: &[Entry], refused: u8) {
    let mut place = 0;
    let placed = entries.iter().map(|entry| {
        place += listed(entry.kind, 0, 0, 0).1.next;
        Entry {
            next: place,
            ..*entry
        }
    });
    assert_eq!(next_all(strip), (placed.collect(), refused), "{strip:?}");
    let sum = entries.iter().map(sum_of).fold(0, u64::wrapping_add);
    assert_eq!(read_all(strip), sum, "{strip:?}");
}

/// Three entries in every order of kinds, then closes, from none to more than
/// the longest entry has bytes: so the last entries are read near the end and
/// far from it. Then the same with a last byte that is no kind.
#[test]
fn whole_strips() {
    let orders = kinds().flat_map(|a| kinds().flat_map(move |b| kinds().map(move |c| [a, b, c])));
    for order in orders {
        let listed = order.map(|kind| listed(kind, kind * 25, 0xFFFF_FF00, 0xFFFF_FF04));
        let lines = listed.each_ref().map(|(line, _)| line.as_str()).join("\n");
        for closes in [0, 1, 24, 25, 26, 27, 60] {
            let mut strip = [listing::strip(&lines), vec![2; closes]].concat();
            let entries = listed.iter().map(|(_, entry)| *entry);
            let entries = entries.chain((0..closes).map(|_| self::listed(2, 0, 0, 0).1));
            let entries: Vec<Entry> = entries.collect();
            check_whole(&strip, &entries, 0);
            strip.push(11);
            check_whole(&strip, &entries, 7);
        }
    }
}

/// The strips of the benchmark, step by step and as a whole.
#[test]
fn strips_of_the_walks() {
    for kind in bench::corpus::KINDS {
        for input in kind.inputs(4_096) {
            let needed = bench::PORT.run(&input, &mut []) as u32;
            let mut strip = vec![0; needed as usize];
            assert_eq!(bench::PORT.run(&input, &mut strip), needed.into());
            let (mut place, mut entries) = (0, Vec::new());
            while let Step::Entry(entry) = step(&strip, place) {
                place = entry.next;
                entries.push(entry);
            }
            assert_eq!(step(&strip, place), Step::End, "{}", kind.name());
            check_whole(&strip, &entries, 0);
        }
    }
}
