//! Entries as text, for the tests.

use ospf_strip::{Entry, Value};

/// The line that the program `dissect` prints for an entry.
pub fn line(entry: &Entry) -> String {
    let (word, _) = listing::kind(entry.kind() as u8).expect("a kind");
    let Some((id, range)) = entry.id().zip(entry.range()) else {
        return word.to_string();
    };
    let value = match entry.value() {
        None => entry.count().map_or(String::new(), |n| n.to_string()),
        Some(Value::Ipv6(v)) => v.octets().iter().map(|b| format!("{b:02x}")).collect(),
        Some(value) => value.to_string(),
    };
    format!("{word} {id} {} {} {value}", range.start, range.end)
        .trim_end()
        .to_string()
}
