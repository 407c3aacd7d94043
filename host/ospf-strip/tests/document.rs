//! docs/STRIP.md says what the reference, this crate and the strips say.

mod walk;

use std::collections::{BTreeMap, BTreeSet};
use std::fs;
use std::path::Path;

use inputs::{Class, Input};
use ospf_strip::{Buffer, Kind, Version};
use walk::run;

/// Classes that together have every field in every kind and at every length it
/// may have.
const CLASSES: [Class; 5] = [
    Class::Structured,
    Class::Tos,
    Class::Prefix,
    Class::Block,
    Class::Unreachable,
];

fn document() -> String {
    let root = Path::new(env!("CARGO_MANIFEST_DIR"));
    fs::read_to_string(root.join("../../docs/STRIP.md")).expect("docs/STRIP.md")
}

/// The part of the document under a heading.
fn part(heading: &str) -> String {
    let document = document();
    let (_, rest) = document
        .split_once(&format!("\n## {heading}\n"))
        .expect(heading);
    rest.split("\n## ").next().unwrap_or_default().to_string()
}

/// The rows of a part's table whose first cell is a number.
fn rows(part: &str) -> Vec<(u8, Vec<String>)> {
    let cells = |line: &str| -> Vec<String> {
        let inner = line.trim_matches('|').split('|');
        inner.map(|cell| cell.trim().to_string()).collect()
    };
    let lines = part.lines().filter(|line| line.starts_with("| "));
    let rows = lines.map(cells).filter_map(|row| {
        let first = row[0].parse().ok()?;
        Some((first, row[1..].to_vec()))
    });
    rows.collect()
}

/// The rows of a version's ids, and of those of blocks, which both have.
fn ids(version: u8) -> Vec<(u8, Vec<String>)> {
    let parts = [format!("Version {version}"), "Blocks".to_string()];
    parts
        .iter()
        .flat_map(|heading| rows(&part(heading)))
        .collect()
}

/// Runs over the generated inputs of a version, and those of blocks.
fn each(version: u8, mut take: impl FnMut(&Input)) {
    for class in CLASSES {
        inputs::of_class(class, 1, 40, &mut |input| {
            if input.version == version || input.walk.is_block() {
                take(&input);
            }
        });
    }
}

/// The document's ids with name and label.
fn documented(version: u8) -> BTreeMap<u8, (String, String)> {
    let rows = ids(version);
    let named: BTreeMap<_, _> = rows
        .iter()
        .map(|(id, row)| (*id, (row[0].clone(), row[1].clone())))
        .collect();
    assert_eq!(named.len(), rows.len(), "an id twice");
    named
}

#[test]
fn names_are_the_references() {
    for version in [2, 3] {
        let mut reference = BTreeMap::new();
        each(version, |input| {
            for (id, field) in input.call().names() {
                let named = (field.name.to_string(), field.display_name.to_string());
                reference.insert(id, named);
            }
        });
        assert_eq!(documented(version), reference, "version {version}");
    }
}

#[test]
fn names_are_this_crates() {
    for version in [Version::V2, Version::V3] {
        let ours = (0..=255).filter_map(|id| {
            let name = ospf_strip::name(version, id)?.to_string();
            Some((id, (name, ospf_strip::label(version, id)?.to_string())))
        });
        let documented = documented(version.number());
        assert_eq!(documented, ours.collect(), "version {version}");
    }
}

/// The requirements' word for a kind.
fn word(kind: Kind) -> &'static str {
    listing::kind(kind as u8).expect("a kind").0
}

/// Kinds and lengths of every id are those of the generated strips; a cell
/// without a length stands for more than one. What is unreachable takes 3 bytes.
#[test]
fn kinds_and_lengths() {
    for version in [2, 3] {
        let mut seen: BTreeMap<u8, BTreeSet<(&str, u32)>> = BTreeMap::new();
        let mut buffer = Buffer::new();
        each(version, |input| {
            for entry in run(&mut buffer, input).into_iter().flatten() {
                if let (Some(id), Some(range)) = (entry.id(), entry.range()) {
                    let found = (word(entry.kind()), range.end - range.start);
                    seen.entry(id).or_default().insert(found);
                }
            }
        });
        for (id, row) in ids(version) {
            let (kinds, lengths) = (row[2].as_str(), row[3].as_str());
            let found = seen.remove(&id).unwrap_or_default();
            let words: BTreeSet<&str> = found.iter().map(|&(word, _)| word).collect();
            assert_eq!(words, kinds.split(", ").collect(), "{id} {found:?}");
            let unreachable = found.iter().filter(|&&(word, _)| word == "never");
            assert!(unreachable.copied().all(|(_, n)| n == 3), "{id} {found:?}");
            let found: BTreeSet<u32> = found.iter().map(|&(_, n)| n).collect();
            let found: Vec<String> = found.iter().map(u32::to_string).collect();
            let fits = if lengths.is_empty() {
                found.len() > 1
            } else {
                found.join(", ") == lengths
            };
            assert!(fits, "version {version}, id {id}: {found:?}");
        }
        assert_eq!(seen, BTreeMap::new(), "version {version}: not documented");
    }
}

#[test]
fn table_of_kinds() {
    let table = rows(&part("Entries"));
    let kinds = listing::KINDS;
    let kinds = kinds.map(|(kind, word, body)| (kind, word.to_string(), body.to_string()));
    let written = table
        .into_iter()
        .map(|(kind, row)| (kind, row[0].clone(), row[1].clone()));
    assert_eq!(written.collect::<Vec<_>>(), kinds);
}

/// Each line's bytes are those of its printed entry, and all lines are the
/// strip of the data above them.
#[test]
fn worked_strip() {
    let part = part("A strip, byte by byte");
    let data = part.lines().find_map(|line| line.strip_prefix("    "));
    let data = listing::hex(data.expect("the data"));
    let mut whole = Vec::new();
    let block = part.split("```").nth(1).expect("the strip").trim();
    for line in block.lines() {
        let mut columns = line.split("  ").filter(|column| !column.is_empty());
        let bytes = listing::hex(columns.next().expect("bytes"));
        let printed = columns.next().expect("a printed entry");
        assert_eq!(bytes, listing::strip(printed), "{line}");
        assert!(columns.next().is_some(), "{line}");
        whole.extend(bytes);
    }
    let mut buffer = Buffer::new();
    let strip = buffer.lsa_headers(Version::V2, &data, 0).expect("accepted");
    assert_eq!(whole, strip.bytes());
    assert!(part.contains(&format!("The answer is {}:", whole.len())));
}

#[test]
fn containers_nest_six_deep() {
    let mut most = 0;
    let mut buffer = Buffer::new();
    for version in [2, 3] {
        each(version, |input| {
            let mut depth = 0;
            for entry in run(&mut buffer, input).into_iter().flatten() {
                match entry.kind() {
                    Kind::Open => depth += 1,
                    Kind::Close => depth -= 1,
                    _ => {}
                }
                most = most.max(depth);
            }
        });
    }
    assert_eq!(most, 6);
    assert!(part("Reading").contains("at most six deep"));
}
