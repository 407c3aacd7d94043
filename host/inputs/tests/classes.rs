//! What the classes promise is there, and the same seed gives the same.

use std::collections::{BTreeMap, BTreeSet};
use std::fs;
use std::path::Path;

use inputs::{CLASSES, Class, Input, MOST_OFFSET, Places, counts, of_class};
use oracle::{Call, Outcome, Walk};

fn all(class: Class, seed: u64) -> Vec<Input> {
    let mut inputs = Vec::new();
    of_class(class, seed, 3, &mut |input| inputs.push(input));
    inputs
}

#[test]
fn same_seed_same_inputs() {
    for class in CLASSES.into_iter().filter(|&c| c != Class::Short) {
        assert!(all(class, 1) == all(class, 1), "{class:?}");
        assert!(all(class, 1) != all(class, 2), "{class:?}");
    }
}

/// The counts of host/README.md, for the rounds that it names.
#[test]
fn counts_by_class() {
    let expected = [
        (Class::Short, 2_434_341),
        (Class::Type, 66_557),
        (Class::Tos, 6_749),
        (Class::Prefix, 41_472),
        (Class::Flags, 35_072),
        (Class::Count, 2_520),
        (Class::DeclaredLength, 133_984),
        (Class::Offset, 462),
        (Class::Refused, 3_855),
        (Class::Large, 25),
        (Class::Structured, 55_000),
        (Class::Truncated, 66_395),
        (Class::Damaged, 30_000),
        (Class::Random, 40_000),
        (Class::Block, 18_000),
        (Class::BlockLength, 147_298),
        (Class::Unreachable, 24_609),
    ];
    assert_eq!(counts(1, 1_000), expected.into_iter().collect());
}

#[test]
fn every_short_body() {
    let mut bodies = BTreeSet::new();
    of_class(Class::Short, 0, 0, &mut |input| {
        assert!(input.data.len() <= 22);
        if (input.version, input.data[3]) == (3, 9) {
            bodies.insert(input.data[20..].to_vec());
        }
    });
    assert_eq!(bodies.len(), 1 + 256 + 65_536);
}

/// Every LS type of version 3 (and so every function with every scope), and
/// every type of version 2 with every opaque type where there is one.
#[test]
fn every_type() {
    let mut v2 = BTreeSet::new();
    let mut v3 = BTreeSet::new();
    for input in all(Class::Type, 1) {
        let data = &input.data;
        match input.version {
            2 => v2.insert((data[3], data[4])),
            _ => v3.insert((data[2], data[3])),
        };
    }
    assert_eq!(v2.len(), 253 + 3 * 256);
    assert_eq!(v3.len(), 65_536);
}

#[test]
fn every_tos_count_fits_and_falls_short() {
    let mut fits = BTreeSet::new();
    let mut falls_short = BTreeSet::new();
    for input in all(Class::Tos, 1) {
        if input.walk != Walk::Lsa || input.data[3] != 1 || input.data.len() < 36 {
            continue;
        }
        let tos = input.data[33];
        let whole = input.data.len() >= 36 + 4 * tos as usize;
        if whole { &mut fits } else { &mut falls_short }.insert(tos);
    }
    assert_eq!(fits.len(), 256);
    // With no TOS entry the link itself is cut, which has no count to read.
    assert_eq!(falls_short.len(), 255);
}

#[test]
fn every_prefix_length_in_each_body() {
    let mut lengths = BTreeSet::new();
    for input in all(Class::Prefix, 1) {
        let function = input.data[3];
        let at = match function {
            8 => 44,
            9 => 32,
            _ => 24,
        };
        lengths.extend(input.data.get(at).map(|&length| (function, length)));
    }
    assert_eq!(lengths.len(), 5 * 256);
}

#[test]
fn every_declared_length() {
    let inputs = all(Class::DeclaredLength, 1);
    let declared = |i: &Input| (i.version, i.data[22], i.data[23]);
    let lengths: BTreeSet<_> = inputs.iter().map(declared).collect();
    assert_eq!(lengths.len(), 2 * 65_536);
}

#[test]
fn offsets_from_0_to_beyond_the_largest() {
    let offsets: BTreeSet<u64> = all(Class::Offset, 1).iter().map(|i| i.offset).collect();
    for offset in [0, 1, 63, MOST_OFFSET, MOST_OFFSET + 1, u64::MAX] {
        assert!(offsets.contains(&offset), "{offset}");
    }
}

/// Each count of an update is met by some inputs and missed by others.
#[test]
fn counts_below_at_and_above() {
    let mut seen = [0; 3];
    for input in all(Class::Count, 1) {
        let Call { walk, count, .. } = input.call();
        if let (Walk::Update, Outcome::Accepted { records, tail, .. }) = (walk, input.call().run())
        {
            let place = match (records < count, tail > 0) {
                (true, _) => 0,
                (false, false) => 1,
                (false, true) => 2,
            };
            seen[place] += 1;
        }
    }
    assert!(seen.iter().all(|&n| n > 20), "{seen:?}");
}

/// Truncation leaves out no byte, and refusals 1 to 4 all occur.
#[test]
fn truncations_and_refusals() {
    let truncated = all(Class::Truncated, 1);
    let next = |pair: &[Input]| pair[1].data.len() == pair[0].data.len() + 1;
    let steps = truncated.windows(2).filter(|pair| next(pair)).count();
    assert!(
        steps + 4 > truncated.len(),
        "{steps} of {}",
        truncated.len()
    );
    let numbers: BTreeSet<u8> = all(Class::Refused, 1)
        .iter()
        .filter_map(|input| match input.call().run() {
            Outcome::Refused(number) => Some(number),
            Outcome::Absent | Outcome::Accepted { .. } => None,
        })
        .collect();
    assert_eq!(numbers, BTreeSet::from([1, 2, 3, 4]));
}

const READINGS: [Walk; 2] = [Walk::Lls, Walk::AuthTrailer];

/// The inputs of a class that read this block.
fn readings(class: Class, walk: Walk) -> Vec<Input> {
    let mut inputs = all(class, 1);
    inputs.retain(|input| input.walk == walk);
    inputs
}

/// Every length field, every length of data up to 40 with every field up to
/// 48, and blocks that fill longer data or are one unit longer.
#[test]
fn every_length_of_a_block() {
    for walk in READINGS {
        let inputs = readings(Class::BlockLength, walk);
        let fields = |length: usize| -> BTreeSet<u16> {
            let of_length = inputs.iter().filter(|i| i.data.len() == length);
            let field = of_length.map(|i| u16::from_be_bytes([i.data[2], i.data[3]]));
            field.collect()
        };
        assert_eq!(fields(40).len(), 65_536, "{walk:?}");
        for length in 0..4 {
            let of_length = inputs.iter().filter(|i| i.data.len() == length);
            assert!(of_length.count() >= 49, "{walk:?} {length}");
        }
        for length in 4..=40 {
            assert!((0..=48).all(|field| fields(length).contains(&field)));
        }
        let unit = if walk == Walk::Lls { 4 } else { 1 };
        for length in (41..=400).chain([65_534, 65_535, 65_536]) {
            let full: usize = length / unit;
            let most = (full + 1).min(usize::from(u16::MAX));
            let (found, mut around) = (fields(length), full - 1..=most);
            assert!(
                around.all(|field| found.contains(&(field as u16))),
                "{length}"
            );
        }
    }
}

/// How many inputs come to refusal 2, to 3, to absent, and to a block.
fn outcomes(inputs: &[Input]) -> [usize; 4] {
    let mut seen = [0; 4];
    for input in inputs {
        let place = match input.call().run() {
            Outcome::Refused(number) => number as usize - 2,
            Outcome::Absent => 2,
            Outcome::Accepted { .. } => 3,
        };
        seen[place] += 1;
    }
    seen
}

#[test]
fn outcomes_and_offsets_of_blocks() {
    for walk in READINGS {
        let lengths = readings(Class::BlockLength, walk);
        let seen = outcomes(&lengths);
        assert!(seen.iter().all(|&n| n > 60), "{walk:?} {seen:?}");
        for found in [false, true] {
            let of = |i: &&Input| matches!(i.call().run(), Outcome::Accepted { .. }) == found;
            let offsets: BTreeSet<u64> = lengths.iter().filter(of).map(|i| i.offset).collect();
            let beyond = [MOST_OFFSET + 1, u64::MAX];
            assert!([0, 1, MOST_OFFSET].iter().all(|o| offsets.contains(o)));
            assert!(beyond.iter().all(|o| offsets.contains(o) != found));
        }
        let [_, _, absent, found] = outcomes(&readings(Class::Block, walk));
        assert!(absent > 3 && found > 9, "{walk:?} {absent} {found}");
    }
}

/// Blocks that end with the data, and blocks before other bytes.
#[test]
fn bytes_after_a_block() {
    for walk in READINGS {
        let blocks = readings(Class::Block, walk)
            .into_iter()
            .filter_map(|input| match input.call().run() {
                Outcome::Accepted { block, .. } => Some(input.data.len() > block as usize),
                _ => None,
            });
        let (followed, alone): (Vec<bool>, Vec<bool>) = blocks.partition(|&after| after);
        assert!(followed.len() > 3 && alone.len() > 2, "{walk:?}");
    }
}

/// The rounds and the seed with which host/test runs the comparison.
fn rounds_and_seed() -> (u32, u64) {
    let script = Path::new(env!("CARGO_MANIFEST_DIR")).join("../test");
    let script = fs::read_to_string(script).expect("host/test");
    let (_, arguments) = script.split_once("-p compare -- ").expect("the comparison");
    let mut numbers = arguments.split(|c: char| !c.is_ascii_digit());
    let mut number = || numbers.next()?.parse().ok();
    (number().expect("rounds") as u32, number().expect("a seed"))
}

/// The places at which the inputs of a class that pass have values of all ones.
fn places(class: Class, pass: fn(&Input) -> bool) -> Places {
    let mut places = Places::default();
    let (rounds, seed) = rounds_and_seed();
    of_class(class, seed, rounds, &mut |input| {
        if let (true, Outcome::Accepted { strip, .. }) = (pass(&input), input.call().run()) {
            places.count(input.version, &strip);
        }
    });
    println!("{class:?}\n{places}");
    places
}

/// Each place has values of all ones, in single LSAs and in updates, in the class
/// made for them and in one that grows; and no other place has any.
#[test]
fn all_ones_at_every_place() {
    for class in [Class::Unreachable, Class::Structured] {
        for walk in [Walk::Lsa, Walk::Update] {
            let pass: fn(&Input) -> bool = match walk {
                Walk::Lsa => |input| input.walk == Walk::Lsa,
                _ => |input| input.walk == Walk::Update,
            };
            assert_eq!(
                places(class, pass).seen(),
                Places::all(),
                "{class:?} {walk:?}"
            );
        }
    }
}

/// Each 24-bit metric has each number that differs from all ones in one bit.
#[test]
fn each_bit_of_a_metric() {
    let mut seen: BTreeMap<(u8, u8, u8), BTreeSet<u32>> = BTreeMap::new();
    for input in all(Class::Unreachable, 1) {
        let (Walk::Lsa, Outcome::Accepted { strip, .. }) = (input.walk, input.call().run()) else {
            continue;
        };
        let mut rest = &strip[..];
        while let [kind, ..] = rest {
            let (_, body) = listing::kind(*kind).expect("a kind");
            let (entry, after) = rest.split_at(1 + body);
            if let &[
                5,
                id @ (17 | 19 | 82),
                _,
                _,
                _,
                start,
                _,
                _,
                _,
                end,
                0,
                a,
                b,
                c,
            ] = entry
                && end.wrapping_sub(start) == 3
            {
                let place = (input.version, input.data[3], id);
                let number = u32::from_be_bytes([0, a, b, c]);
                seen.entry(place).or_default().insert(number);
            }
            rest = after;
        }
    }
    let v2 = [3, 4, 5, 7].map(|ls_type| [(2, ls_type, 19), (2, ls_type, 82)]);
    let v3 = [3, 4, 5, 7].map(|function| (3, function, 17));
    let places: Vec<_> = v2.concat().into_iter().chain(v3).collect();
    assert!(seen.keys().eq(&places), "{:?}", seen.keys());
    for (place, numbers) in seen {
        let nearly = |bit: u32| numbers.contains(&(0xFF_FFFF ^ 1 << bit));
        assert!((0..24).all(nearly), "{place:?}");
        assert!(numbers.contains(&0) && !numbers.contains(&0xFF_FFFF));
    }
}
