//! docs/THEOREMS.md names theorems and contracts, files and edits that there are.

use std::collections::BTreeSet;
use std::fs;
use std::path::{Path, PathBuf};

fn root() -> PathBuf {
    Path::new(env!("CARGO_MANIFEST_DIR")).join("../..")
}

/// The rows of the document's tables, a cell each, with whether the last cell names edits.
fn rows() -> Vec<(Vec<String>, bool)> {
    let document = fs::read_to_string(root().join("docs/THEOREMS.md")).expect("docs/THEOREMS.md");
    let mut rows = Vec::new();
    let mut edits = false;
    for line in document.lines().filter(|line| line.starts_with("| ")) {
        let inner = line.trim_matches('|').split('|');
        let row: Vec<String> = inner.map(|cell| cell.trim().to_string()).collect();
        let last = row.last().expect("a cell");
        match last.as_str() {
            "rules out" => edits = true,
            "file" | "a strip that is accepted shows" => edits = false,
            _ => rows.push((row, edits)),
        }
    }
    rows
}

/// The words of all sources, specifications and proofs of crates/.
fn words() -> BTreeSet<String> {
    fn read(dir: &Path, words: &mut BTreeSet<String>) {
        for entry in fs::read_dir(dir).expect("a folder") {
            let path = entry.expect("an entry").path();
            let ending = path.extension().and_then(|ending| ending.to_str());
            if path.is_dir() {
                read(&path, words);
            } else if matches!(ending, Some("antt" | "rt")) {
                let text = fs::read_to_string(&path).expect("text");
                let parts = text.split(|c: char| !(c.is_alphanumeric() || "_-".contains(c)));
                words.extend(parts.map(str::to_string));
            }
        }
    }
    let mut words = BTreeSet::new();
    for entry in fs::read_dir(root().join("crates")).expect("crates") {
        let folder = entry.expect("an entry").path();
        // Not what `rt` keeps, in out/.
        let parts = ["src", "specs", "proofs"].map(|part| folder.join(part));
        for part in parts.iter().filter(|part| part.is_dir()) {
            read(part, &mut words);
        }
    }
    words
}

#[test]
fn names_stand_in_the_sources() {
    let words = words();
    let mut names = 0;
    for (row, _) in rows() {
        for cell in &row {
            for name in cell.split('`').skip(1).step_by(2) {
                let last = name.rsplit("::").next().unwrap_or_default();
                let known = match last.strip_suffix('*') {
                    Some(front) => words.iter().any(|word| word.starts_with(front)),
                    None => last.split(' ').all(|part| words.contains(part)),
                };
                assert!(known, "{name}: {}", row[0]);
                names += 1;
            }
        }
    }
    assert!(100 < names, "{names} names");
}

#[test]
fn files_are_there() {
    let mut files = 0;
    for (row, _) in rows() {
        for cell in &row {
            for part in cell.split([' ', ',', ';', '(', ')']) {
                let part = part.trim_end_matches('.');
                let path = match part.split_once('/') {
                    Some(("crates" | "docs" | "host", _)) => root().join(part),
                    Some(("specs" | "proofs", _)) => root().join("crates/format").join(part),
                    _ => continue,
                };
                assert!(path.exists(), "{part}: {}", row[0]);
                files += 1;
            }
        }
    }
    assert!(50 < files, "{files} files");
}

#[test]
fn edits_are_there() {
    let mut edits = 0;
    for (row, _) in rows().into_iter().filter(|(_, edits)| *edits) {
        let last = row.last().expect("a cell");
        for name in last.split([',', ';']).map(str::trim) {
            if name.contains(' ') || name.is_empty() {
                continue;
            }
            let (of, edit) = name.split_once('/').unwrap_or(("format", name));
            let path = root().join(format!("crates/{of}/must-fail/{edit}.edit"));
            assert!(path.exists(), "{name}: {}", row[0]);
            edits += 1;
        }
    }
    assert!(80 < edits, "{edits} edits");
}
