//! The generated part of include/ospf.h: the kinds of entries and the lengths
//! of their bodies, as `listing` has them, and the ids of fields with their
//! names, as `ospf-strip` has them.

use std::fmt::Write;
use std::path::PathBuf;

use ospf_strip::Version::{self, V2, V3};

/// The lines of the header that stand around the generated part.
const BEGIN: &str =
    "/* Generated from here on: `cargo run --offline -p c-header` in host/ writes it anew. */\n";
const END: &str = "/* Generated up to here. */\n";

/// The ids that mean the same in both versions, as crates/strip_ids calls them.
pub const BOTH: [(u8, &str); 16] = [
    (96, "LINK"),
    (97, "TOS_METRIC_OR_PREFIX"),
    (98, "ATTACHED_ROUTER"),
    (112, "HEADER"),
    (113, "LSA"),
    (114, "OUTER"),
    (128, "LLS_CHECKSUM"),
    (129, "LLS_DATA_LENGTH"),
    (130, "LLS_TLVS"),
    (136, "LLS"),
    (144, "AUTH_TYPE"),
    (145, "AUTH_DATA_LEN"),
    (146, "SA_ID"),
    (147, "CRYPTO_SEQUENCE_NUMBER"),
    (148, "AUTH_DATA"),
    (152, "AUTH_TRAILER"),
];

/// Where the header is.
pub fn path() -> PathBuf {
    PathBuf::from(env!("CARGO_MANIFEST_DIR")).join("../../include/ospf.h")
}

/// A header with its generated part written anew; none if it does not have
/// both lines around it.
pub fn renewed(header: &str) -> Option<String> {
    let (before, rest) = header.split_once(BEGIN)?;
    let (_, after) = rest.split_once(END)?;
    Some([before, BEGIN, &generated(), END, after].concat())
}

/// The generated part.
pub fn generated() -> String {
    let kinds = listing::KINDS;
    let numbers = kinds.map(|(n, word, _)| (format!("OSPF_KIND_{}", constant(word)), n.into()));
    let bodies = kinds.map(|(_, word, n)| (format!("OSPF_BODY_{}", constant(word)), n));
    let both = BOTH.map(|(id, name)| (format!("OSPF_ID_{name}"), id.into()));
    [
        enumeration(
            "What an entry is: the first byte of each. OSPF_KIND_UNREACHABLE is a 24-bit metric of all ones.",
            numbers,
        ),
        enumeration(
            "How many bytes follow it: id, start and end of every kind but a close, then the value, or the count of an open.",
            bodies,
        ),
        enumeration("The fields' ids in version 2.", fields(V2)),
        enumeration("The fields' ids in version 3.", fields(V3)),
        enumeration("The ids that mean the same in both versions.", both),
        names(V2),
        names(V3),
        NAME.to_string(),
    ]
    .concat()
}

/// The choice of the version, after the names of each.
const NAME: &str = "
/* The name of a field; null where the version has no such id. */
static inline const char *ospf_name(uint8_t version, uint8_t id)
{
    return version == 2 ? ospf_name_v2(id) : version == 3 ? ospf_name_v3(id) : NULL;
}

";

/// An enumeration, a row a line.
fn enumeration(says: &str, rows: impl IntoIterator<Item = (String, usize)>) -> String {
    let rows = rows.into_iter();
    let rows: Vec<String> = rows.map(|(name, n)| format!("    {name} = {n}")).collect();
    format!("\n/* {says} */\nenum {{\n{}\n}};\n", rows.join(",\n"))
}

/// The names of a version, as a function.
fn names(version: Version) -> String {
    let mut out = format!(
        "\nstatic inline const char *ospf_name_v{version}(uint8_t id)\n{{\n    switch (id) {{\n"
    );
    for (id, name) in table(version) {
        let both = BOTH.iter().find(|row| row.0 == id);
        let case = match both {
            Some((_, both)) => format!("OSPF_ID_{both}"),
            None => enumerator(version, id, name),
        };
        writeln!(out, "    case {case}: return \"{name}\";").expect("a string takes it");
    }
    out + "    default: return NULL;\n    }\n}\n"
}

/// The fields of a version that are not the same in both.
fn fields(version: Version) -> impl Iterator<Item = (String, usize)> {
    let own = table(version).filter(|&(id, _)| BOTH.iter().all(|row| row.0 != id));
    own.map(move |(id, name)| (enumerator(version, id, name), id.into()))
}

/// All ids of a version, with the reference's names.
fn table(version: Version) -> impl Iterator<Item = (u8, &'static str)> {
    (0..=u8::MAX).filter_map(move |id| Some((id, ospf_strip::name(version, id)?)))
}

/// The enumerator of a field. A name that a lower id has too says whose field
/// it is: a link's, a TOS metric's, or a prefix's in a list.
fn enumerator(version: Version, id: u8, name: &str) -> String {
    let twice = table(version).any(|(other, its)| other < id && its == name);
    let whose = match (version, id) {
        _ if !twice => "",
        (_, 64..80) => "LINK_",
        (V2, 80..96) => "TOS_",
        (V3, 80..96) if name.starts_with("prefix") => "LIST_",
        (V3, 80..96) => "LIST_PREFIX_",
        _ => panic!("version {version} has {name} twice"),
    };
    format!("OSPF_V{version}_{whose}{}", constant(name))
}

/// A word as a constant's name; IPv4, IPv6 and unreachable are `ip4`, `ip6` and
/// `never` in listings.
fn constant(word: &str) -> String {
    match word {
        "ip4" => "IPV4".to_string(),
        "ip6" => "IPV6".to_string(),
        "never" => "UNREACHABLE".to_string(),
        _ => word.to_uppercase(),
    }
}
