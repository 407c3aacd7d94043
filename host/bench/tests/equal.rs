//! The hand-written walks and readings of blocks give the port's answers and
//! strips, the hand-written comparisons of prefixes the port's answers, the
//! hand-written updates of a book its answers and rows, and the hand-written
//! checksums those of the second implementation.

use bench::careful::book::{Update, by_map, careful as by_search};
use bench::careful::checksum::{CAREFUL as WORDS, PLAIN};
use bench::careful::prefix::{Compare, careful, plain};
use bench::corpus::{BLOCKS, BOOKS, KINDS, Kind, PREFIXES, blocks, prefixes, worst};
use bench::{CAREFUL, PORT, walked};
use inputs::{CLASSES, Input};
use ospf_strip::exports;

/// How much longer than needed the larger buffer is.
const MORE: usize = 37;

/// Both walks on one input, with a buffer that is empty, one byte short,
/// full, and larger.
fn check(input: &Input) {
    let needed = PORT.run(input, &mut []) as u32 as usize;
    for room in [0, needed.saturating_sub(1), needed, needed + MORE] {
        let mut expected = vec![0xA5; room];
        let mut found = expected.clone();
        let answer = PORT.run(input, &mut expected);
        assert_eq!(CAREFUL.run(input, &mut found), answer, "{input:?}");
        assert!(found == expected, "{input:?}, room {room}");
    }
}

#[test]
fn on_the_corpus() {
    for kind in KINDS {
        for size in [4, 1_500, 65_535] {
            kind.inputs(size).iter().for_each(check);
        }
    }
    for worst in worst() {
        check(&worst.input);
    }
}

/// About one of eight metrics is unreachable in the rows that are made for it,
/// and none in the others.
#[test]
fn unreachable_in_the_corpus() {
    for kind in KINDS.into_iter().filter(|&kind| kind != Kind::Captures) {
        let (mut metrics, mut unreachable) = (0, 0);
        for input in kind.inputs(65_535) {
            let mut strip = vec![0; PORT.run(&input, &mut []) as u32 as usize];
            for entry in walked(&input, &mut strip).entries() {
                metrics += usize::from(entry.name() == Some("metric"));
                unreachable += usize::from(entry.is_unreachable());
            }
        }
        let expected = match kind {
            Kind::SummaryTosV2
            | Kind::ExternalTosV2
            | Kind::InterAreaPrefixV3
            | Kind::ExternalV3 => metrics / 10..=metrics / 6,
            _ => 0..=0,
        };
        let name = kind.name();
        assert!(
            expected.contains(&unreachable),
            "{name}: {unreachable} of {metrics}"
        );
    }
}

/// A row's blocks are there, or absent, as its name says.
#[test]
fn on_the_blocks() {
    for (row, (name, _, length, _)) in BLOCKS.into_iter().enumerate() {
        for input in blocks(row) {
            check(&input);
            let answer = PORT.run(&input, &mut [0; 79]);
            let expected = if name.ends_with("absent") { 0 } else { length };
            assert_eq!(answer >> 32, (expected as u64) << 8, "{name}");
        }
    }
}

/// A row's prefixes are the same, or different, as its name says.
#[test]
fn on_the_prefixes() {
    for (row, (name, ..)) in PREFIXES.into_iter().enumerate() {
        for (l, a, m, b) in prefixes(row) {
            let expected = u64::from(name.starts_with("same") || name == "no bits");
            for compare in COMPARISONS {
                assert_eq!(compare(l, &a, m, &b), expected, "{name}");
            }
        }
    }
}

const COMPARISONS: [Compare; 3] = [exports::ospf_prefix_compare, careful, plain];

/// Every length, with none, four, 16 and 17 octets of the first, and the
/// second changed at every bit.
#[test]
fn on_all_lengths() {
    let octets: Vec<u8> = (0..17).map(|i| 0x5B_u8.wrapping_mul(i + 1)).collect();
    for (length, other) in (0..=255).flat_map(|l: u8| [(l, l), (l, l.wrapping_add(1))]) {
        for bit in 0..octets.len() * 8 {
            let mut changed = octets.clone();
            changed[bit / 8] ^= 0x80 >> (bit % 8);
            for n in [0, 4, 16, 17] {
                let [port, rest @ ..] =
                    COMPARISONS.map(|compare| compare(length, &octets[..n], other, &changed));
                assert_eq!(rest, [port; 2], "{length} {other} {bit} {n}");
            }
        }
    }
}

#[test]
fn on_generated_inputs() {
    for class in CLASSES {
        let mut inputs = 0;
        inputs::of_class(class, 5, 60, &mut |input| {
            check(&input);
            inputs += 1;
        });
        assert!(inputs > 0, "{class:?}");
    }
}

#[test]
fn checksums() {
    for of in [WORDS, PLAIN] {
        let lengths = (0..2_000).chain(65_500..65_540);
        let counts = checksum::compare(of, 9, lengths).expect("no difference");
        assert_eq!(counts.made, 1_980 + 36);
    }
}

const UPDATES: [Update; 3] = [exports::ospf_book_update, by_search, by_map];

/// Each update replaces what is newer and adds what is new, and has known LSAs
/// that are not newer.
#[test]
fn on_the_books() {
    for (row, (number, lsas)) in BOOKS.into_iter().enumerate() {
        let book = bench::corpus::book(row);
        assert_eq!(book.rows.len(), number);
        for data in &book.updates {
            let taken = UPDATES.map(|update| {
                let mut rows = book.rows.clone();
                (update(2, data, u32::MAX, 0, &mut rows), rows)
            });
            let [port, rest @ ..] = taken;
            assert!(rest.iter().all(|taken| *taken == port), "{number}, {lsas}");
            let (number_of, replaced) = exports::unpack(port.0);
            let added = exports::additions(port.0) as usize;
            let expected = match (number, lsas) {
                (_, 10) => 1,
                (100, _) => 0,
                _ => lsas / 100,
            };
            assert_eq!((number_of, added), (0, expected), "{number}, {lsas}");
            let replaced = replaced as usize;
            assert!(replaced > 0 && replaced + added < lsas, "{replaced}");
        }
    }
}

#[test]
fn books() {
    for update in [by_search, by_map] {
        let counts = book::compare(update, 9, 40_000).expect("no difference");
        assert_eq!(counts.missing(), []);
    }
}
