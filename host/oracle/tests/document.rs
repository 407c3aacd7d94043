//! docs/DIFFERENCES.md and its tests go together.

use std::collections::BTreeSet;
use std::fs;
use std::path::Path;

fn text(path: &str) -> String {
    let root = Path::new(env!("CARGO_MANIFEST_DIR"));
    fs::read_to_string(root.join(path)).expect(path)
}

/// The names of the tests in a file.
fn tests(path: &str) -> BTreeSet<String> {
    let text = text(path);
    let starts = text.split("#[test]\nfn ").skip(1);
    let names = starts.map(|rest| rest.split('(').next().unwrap_or_default());
    names.map(String::from).collect()
}

/// The names in a paragraph's last sentence, from its "Test" on.
fn named(document: &str) -> BTreeSet<String> {
    let mut names = BTreeSet::new();
    for line in document.lines() {
        let Some(at) = line.find("Test `").or(line.find("Tests `")) else {
            continue;
        };
        let quoted = line[at..].split('`').skip(1).step_by(2);
        names.extend(quoted.filter(|q| !q.contains('.')).map(String::from));
    }
    names
}

/// Every difference has a test, and every test of a difference is named.
#[test]
fn tests_and_document_name_each_other() {
    let document = text("../../docs/DIFFERENCES.md");
    let named = named(&document);
    let own = &tests("tests/differences.rs") | &tests("src/intended.rs");
    assert!(own.len() > 20, "{own:?}");
    assert_eq!(&own - &named, BTreeSet::new(), "not named");
    let files = [
        "tests/requirements.rs",
        "tests/blocks.rs",
        "tests/unreachable.rs",
        "../ospf-strip/tests/wrapper.rs",
    ];
    let others: BTreeSet<String> = files.into_iter().flat_map(tests).collect();
    assert_eq!(&named - &(&own | &others), BTreeSet::new(), "not there");
}

/// Every paragraph of parts 2 and 3 ends with its test.
#[test]
fn every_difference_has_a_test() {
    let document = text("../../docs/DIFFERENCES.md");
    let (_, differences) = document.split_once("\n## 2.").expect("part 2");
    let paragraphs: Vec<&str> = differences
        .split("\n\n")
        .filter(|p| p.starts_with("**"))
        .collect();
    assert!(paragraphs.len() > 25, "{}", paragraphs.len());
    for paragraph in paragraphs {
        assert!(!named(paragraph).is_empty(), "{paragraph}");
    }
}
