//! include/ospf.h has exactly the generated part, and its ids are those of
//! crates/strip_ids.

use std::collections::BTreeMap;
use std::fs;
use std::path::Path;

#[test]
fn the_file_is_up_to_date() {
    let header = fs::read_to_string(c_header::path()).expect("include/ospf.h");
    let renewed = c_header::renewed(&header).expect("the lines around the generated part");
    assert!(
        header == renewed,
        "include/ospf.h is not up to date: run `cargo run --offline -p c-header` in host/"
    );
}

/// The numbers of lines `NAME = number`, by their names in capitals.
fn numbers<'a>(lines: impl Iterator<Item = &'a str>) -> BTreeMap<String, usize> {
    let rows = lines.filter_map(|line| line.trim_end_matches(',').split_once(" = "));
    rows.map(|(name, n)| (name.to_uppercase(), n.parse().expect("a number")))
        .collect()
}

/// The enumerators of the generated part, by what follows `prefix`.
fn enumerators(prefix: &str) -> BTreeMap<String, usize> {
    let generated = c_header::generated();
    numbers(
        generated
            .lines()
            .filter_map(|line| line.trim().strip_prefix(prefix)),
    )
}

/// A file of crates/strip_ids.
fn source(file: &str) -> String {
    let folder = Path::new(env!("CARGO_MANIFEST_DIR")).join("../../crates/strip_ids/src");
    fs::read_to_string(folder.join(file)).expect("crates/strip_ids")
}

/// The numbers of the cases of its enum.
fn cases(file: &str) -> BTreeMap<String, usize> {
    let source = source(file);
    numbers(
        source
            .lines()
            .filter_map(|line| line.strip_prefix("    ")?.strip_suffix(',')),
    )
}

/// Its numbers that are constants.
fn constants(file: &str) -> BTreeMap<String, usize> {
    let text = source(file);
    let lines = text
        .lines()
        .filter_map(|line| line.strip_prefix("pub const "));
    let rows = lines.filter_map(|line| {
        let (name, rest) = line.split_once(": ")?;
        let number = rest.split_once(" = ")?.1.trim_end_matches(';').parse();
        Some((name.to_string(), number.ok()?))
    });
    rows.collect()
}

/// Every id that crates/strip_ids has is here by the same name. It leaves out
/// some that follow another, which are here alone.
#[test]
fn ids_are_those_of_the_proved_crates() {
    for version in [2, 3] {
        let here = enumerators(&format!("OSPF_V{version}_"));
        let there = constants(&format!("v{version}.rt"));
        assert!(there.len() > 25, "version {version}: {there:?}");
        for (name, id) in &there {
            assert_eq!(here.get(name), Some(id), "version {version}, {name}");
        }
    }
    let both = ["lib.rt", "block.rt"].into_iter().flat_map(constants);
    assert_eq!(enumerators("OSPF_ID_"), both.collect());
}

#[test]
fn kinds_are_those_of_the_proved_crates() {
    let mut there = constants("kind.rt");
    there.append(&mut cases("kind.rt"));
    let mut kinds = enumerators("OSPF_KIND_");
    for (name, body) in enumerators("OSPF_BODY_") {
        kinds.insert(format!("{name}_BODY"), body);
    }
    assert_eq!(kinds, there);
}
