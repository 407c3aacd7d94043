//! The stored files are what the command makes, and can be read back.

use std::collections::BTreeSet;
use std::fs;
use std::path::Path;

use inputs::Places;
use listing::hex;
use oracle::{Answer, Call, Outcome, Walk};
use samples::{Room, Sample, answered, captures_bin, oracle_bin, read, write};

fn stored(name: &str) -> Vec<u8> {
    let top = Path::new(env!("CARGO_MANIFEST_DIR")).join("../..");
    let stored = fs::read(top.join("samples").join(name)).expect("the stored file");
    let replayed = fs::read(top.join("crates/replay/data").join(name)).expect("its copy");
    assert!(stored == replayed, "{name} is not what is replayed");
    stored
}

/// Not compared by `assert_eq`, which would print megabytes.
fn check(name: &str, made: &[u8]) {
    let stored = stored(name);
    assert!(stored == made, "{name} is not what the command makes");
    // The program that replays it reads files that are shorter.
    assert!(stored.len() < 1_048_576, "{}", stored.len());
    let samples = read(&stored).expect("samples");
    assert!(write(samples) == stored, "{name} read and written again");
}

/// The call of a sample.
fn call_of(sample: &Sample) -> Call<'_> {
    Call {
        version: sample.version,
        walk: sample.walk,
        data: &sample.data,
        count: sample.count,
        offset: sample.offset,
    }
}

#[test]
fn oracle_bin_is_made_again() {
    check("oracle.bin", &oracle_bin());
}

#[test]
fn captures_bin_is_made_again() {
    check("captures.bin", &captures_bin().expect("the captures"));
}

const DATA: &str = "00 01 02 01 0A 00 00 01 0A 00 00 01 80 00 00 01 12 34 00 18 FF";

/// The worked listing of the requirements at offset 24, as a sample.
fn worked() -> Sample {
    let strip = listing::strip(
        "open 114 24 44 1\n open 112 24 44 8\n u16 0 24 26 1\n u8 1 26 27 2\n u8 2 27 28 1\n \
         ip4 3 28 32 10.0.0.1\n ip4 4 32 36 10.0.0.1\n u32 5 36 40 2147483649\n \
         u16 6 40 42 4660\n u16 7 42 44 24\n close\n close\n bytes 25 44 45",
    );
    Sample {
        version: 2,
        walk: Walk::Headers,
        count: 0,
        offset: 24,
        room: 148,
        data: hex(DATA),
        answer: Answer {
            number: 0,
            length: 140,
            records: 1,
            tail: 1,
            block: 0,
        },
        strip,
    }
}

/// Its bytes in a file, by hand.
#[test]
fn format_by_hand() {
    let call = hex(&format!(
        "02 00 00000000 0000000000000018 00000094 00000015 {DATA}"
    ));
    let answer = hex("00 0000008C 00000001 00000001");
    let bytes = [call, answer, worked().strip].concat();
    assert_eq!(write([worked()]), bytes);
    assert_eq!(read(&bytes), Some(vec![worked()]));
    assert_eq!(read(&bytes[..bytes.len() - 1]), None);
}

/// A trailer of 16 bytes before another byte, and an absent one: the block's
/// length stands in the place of the records.
#[test]
fn blocks_by_hand() {
    let call = "07 04 00000000 0000000000000000 0000004F";
    let trailer = "0001 0010 0000 0064 0000000000000002";
    let strip = listing::strip(
        "open 152 0 16 5\n u16 144 0 2 1\n u16 145 2 4 16\n u16 146 6 8 100\n \
         u64 147 8 16 2\n bytes 148 16 16\n close",
    );
    let found = [
        hex(&format!("{call} 00000011 {trailer} FF")),
        hex("00 0000004F 00000010 00000000"),
        strip,
    ];
    let absent = hex(&format!(
        "{call} 00000002 0001 00 00000000 00000000 00000000"
    ));
    let bytes = [found.concat(), absent].concat();
    let samples = read(&bytes).expect("samples");
    assert_eq!(samples[0].answer.block, 16);
    assert_eq!(samples[1].answer, Answer::default());
    assert!(samples.iter().all(|s| s.answer.records == 0));
    for sample in &samples {
        let mut strip = vec![0; 79];
        let answer = call_of(sample).run().lend(&mut strip);
        assert_eq!(answer, sample.answer);
        assert!(strip.starts_with(&sample.strip));
    }
    assert_eq!(write(samples), bytes);
    // No other walk has a number.
    let mut other = bytes;
    other[1] = 5;
    assert_eq!(read(&other), None);
}

/// The oracle gives that sample's answer.
#[test]
fn answer_by_hand() {
    let input = inputs::Input {
        class: inputs::Class::Structured,
        version: 2,
        walk: Walk::Headers,
        data: hex(DATA),
        count: 0,
        offset: 24,
    };
    assert_eq!(answered(&input, Room::Larger(8)), worked());
}

/// Every answer a walk can give is there, for each walk that can give it, and
/// most inputs are short.
#[test]
fn every_answer_is_there() {
    let samples = read(&stored("oracle.bin")).expect("samples");
    let found: BTreeSet<(u8, u8)> = samples
        .iter()
        .map(|s| (s.walk as u8, s.answer.number))
        .collect();
    for walk in 0..3 {
        for number in [0, 1, 3, 5] {
            assert!(found.contains(&(walk, number)), "walk {walk}: {number}");
        }
    }
    for (walk, number) in [(2, 2), (1, 4), (2, 4)] {
        assert!(found.contains(&(walk, number)), "walk {walk}: {number}");
    }
    for walk in [3, 4] {
        let numbers: Vec<u8> = (0..=255).filter(|&n| found.contains(&(walk, n))).collect();
        assert_eq!(numbers, [0, 2, 3, 5], "walk {walk}");
    }
    let long = samples.iter().filter(|s| s.data.len() > 2_048).count();
    assert!((1..10).contains(&long), "{long}");
}

/// Blocks that are there and absent ones, with buffers that are empty, full and
/// larger; refusal 5 with an empty buffer and with one that is a byte short.
#[test]
fn every_room_of_a_block() {
    let samples = read(&stored("oracle.bin")).expect("samples");
    for walk in [Walk::Lls, Walk::AuthTrailer] {
        let mut seen: BTreeSet<(u8, bool, &str)> = BTreeSet::new();
        for sample in samples.iter().filter(|s| s.walk == walk) {
            let room = match (sample.room, sample.answer.length) {
                (0, _) => "empty",
                (room, needed) if room < needed => "short",
                (room, needed) if room == needed => "full",
                _ => "larger",
            };
            seen.insert((sample.answer.number, sample.answer.block > 0, room));
        }
        let expected = [
            (0, false, "empty"),
            (0, false, "larger"),
            (0, true, "full"),
            (0, true, "larger"),
            (2, false, "empty"),
            (3, false, "empty"),
            (3, false, "larger"),
            (5, false, "empty"),
            (5, false, "short"),
        ];
        assert_eq!(seen, BTreeSet::from(expected), "{walk:?}");
    }
}

/// The places of values of all ones in the strip of a sample's call, which is
/// not stored after a refusal 5.
fn places(sample: &Sample) -> Places {
    let mut places = Places::default();
    if let Outcome::Accepted { strip, .. } = call_of(sample).run() {
        places.count(sample.version, &strip);
    }
    places
}

/// Stored strips have values of all ones at every place. Strips that say
/// unreachable are also asked for with an empty buffer, and with one that is a
/// byte short.
#[test]
fn all_ones_at_every_place() {
    let mut samples = read(&stored("oracle.bin")).expect("samples");
    samples.retain(|sample| !sample.walk.is_block());
    let mut accepted = Places::default();
    let mut short = [0; 2];
    for sample in &samples {
        let places = places(sample);
        match (sample.answer.number, sample.room) {
            (0, _) => accepted.add(&places),
            (5, room) if places.seen().iter().any(|place| place.what == "metric") => {
                assert!(room == 0 || room + 1 == sample.answer.length);
                short[usize::from(room > 0)] += 1;
            }
            _ => {}
        }
    }
    assert_eq!(accepted.seen(), Places::all());
    assert!(short.iter().all(|&n| n > 2), "{short:?}");
}

/// Routers say unreachable: 30 inter-area prefix LSAs of the published captures,
/// each in its update and by itself, all of the age at which they are flushed.
#[test]
fn unreachable_in_the_captures() {
    let samples = read(&captures_bin().expect("the captures")).expect("samples");
    let single = |sample: &&Sample| sample.walk == Walk::Lsa && places(sample) != Places::default();
    let found: Vec<&Sample> = samples.iter().filter(single).collect();
    assert_eq!(found.len(), 30);
    for sample in found {
        assert_eq!(sample.data[..4], [0x0E, 0x10, 0x20, 0x03]);
        assert_eq!(sample.data[20..24], [0, 255, 255, 255]);
        let metric = sample.strip[90..].starts_with(&[9, 17]);
        assert!(metric && sample.strip[100] == 3, "a prefix length follows");
    }
}
