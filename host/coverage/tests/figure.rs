//! The figure: what the stored samples reach, and what nothing can reach.

use std::fs;
use std::path::Path;

use coverage::{BRANCHES, LINES, POINTS, missed, replay};

/// Statements that no call reaches: the readers' errors. Each read of these
/// widths stands behind a length test. (`read_be_u16` and `read_ipv4_addr` are
/// reached: an LLS block's length and a network mask are read before that of
/// the data is known.)
const NO_STATEMENT: [(&str, &str); 3] = [
    ("util", "read_be_u24"),
    ("util", "read_be_u32"),
    ("util", "read_be_u64"),
];

/// Ways out that no call takes: the index of an opened container is always
/// valid, and a length test has come before each of the four reads.
const NO_WAY_OUT: [(&str, &str, &str); 5] = [
    ("tlv", "set_range_end", "if"),
    ("v2_lsa", "push_summary_lsa", "?"),
    ("v2_lsa", "push_external_lsa", "?"),
    ("v3_lsa", "push_external_lsa", "?"),
    ("trailer", "auth_trailer_len", "?"),
];

#[test]
fn all_but_the_unreachable_is_reached() {
    assert_eq!(missed().count(), POINTS.len(), "nothing ran before");
    assert!(LINES.iter().all(|line| !line.reached()));

    let path = Path::new(env!("CARGO_MANIFEST_DIR")).join("../../samples/oracle.bin");
    let file = fs::read(path).expect("the stored samples");
    let samples = samples::read(&file).expect("samples");
    assert!(
        samples.iter().all(replay),
        "the copies answer as the oracle"
    );

    let missed: Vec<(&str, &str)> = missed().map(|p| (p.file, p.function)).collect();
    assert_eq!(missed, NO_STATEMENT);
    let ways_out: Vec<(&str, &str, &str)> = BRANCHES
        .iter()
        .filter(|branch| !branch.reached())
        .map(|b| (POINTS[b.from].file, POINTS[b.from].function, b.kind))
        .collect();
    assert_eq!(ways_out, NO_WAY_OUT);

    // Each error is a `return` of one statement over three lines of code.
    let unreached = LINES.iter().filter(|line| !line.reached()).count();
    assert_eq!((LINES.len(), unreached), (624, 9));
    assert_eq!((POINTS.len(), BRANCHES.len()), (362, 40));
}
