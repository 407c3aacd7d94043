//! Every name in this crate's tables is the reference's.

use std::collections::BTreeMap;

use inputs::Class;
use ospf_strip::Version;

/// All ids that the reference pushes for structured LSAs and for blocks, which
/// are the same in both versions, and their names.
fn reference(version: u8) -> BTreeMap<u8, (&'static str, &'static str)> {
    let mut names = BTreeMap::new();
    for class in [Class::Structured, Class::Block] {
        inputs::of_class(class, 1, 40, &mut |input| {
            if input.version == version || input.walk.is_block() {
                for (id, field) in input.call().names() {
                    let found = (field.name, field.display_name);
                    assert_eq!(*names.entry(id).or_insert(found), found, "id {id}");
                }
            }
        });
    }
    names
}

fn check(version: Version) {
    let reference = reference(version.number());
    for id in 0..=255 {
        let ours = ospf_strip::name(version, id).zip(ospf_strip::label(version, id));
        assert_eq!(
            ours,
            reference.get(&id).copied(),
            "version {version}, id {id}"
        );
    }
}

#[test]
fn version_2() {
    check(Version::V2);
}

#[test]
fn version_3() {
    check(Version::V3);
}

#[test]
fn no_other_version() {
    let versions = (0..=255).filter_map(|number| Version::try_from(number).ok());
    assert!(versions.eq([Version::V2, Version::V3]));
}
