//! Where strips have values of all ones, counted: entries that say unreachable,
//! and numbers. The ids are those of the requirements.

use std::collections::{BTreeMap, BTreeSet};
use std::fmt;

/// What stands at a place.
type What = &'static str;

/// The metrics of 24 bits, by version and LS type or function.
const METRICS: [(u8, &[u16], &[What]); 2] = [
    (
        2,
        &[3, 4, 5, 7],
        &[
            METRIC,
            TOS_ALONE,
            TOS_FIRST,
            TOS_BETWEEN,
            TOS_LAST,
            TOS_ALL,
            TOS_SOME,
        ],
    ),
    (3, &[3, 4, 5, 7], &[METRIC]),
];

const METRIC: What = "metric";
/// Of a list of one; of a list of several its first, those between, its last.
const TOS_ALONE: What = "TOS metric alone";
const TOS_FIRST: What = "first TOS metric";
const TOS_BETWEEN: What = "TOS metric between";
const TOS_LAST: What = "last TOS metric";
/// Lists of several.
const TOS_ALL: What = "all TOS metrics";
const TOS_SOME: What = "some TOS metrics";

/// Values that are numbers though all ones.
const NUMBERS: [(u8, &[u16], &[What]); 7] = [
    (2, &[1], &[LINK_METRIC, LINK_TOS_METRIC]),
    (2, &[5, 7], &[TAG, TOS_TAG]),
    (2, &[9, 10, 11], &[OPAQUE_ID]),
    (3, &[1], &[OPTIONS, LINK_METRIC]),
    (3, &[2, 4, 8, 33, 34, 40], &[OPTIONS]),
    (3, &[5, 7], &[TAG]),
    (3, &[9], &[PREFIX_METRIC]),
];

const LINK_METRIC: What = "link metric";
const LINK_TOS_METRIC: What = "link TOS metric";
const TAG: What = "tag";
const TOS_TAG: What = "TOS tag";
const OPAQUE_ID: What = "opaque id";
const OPTIONS: What = "options";
const PREFIX_METRIC: What = "prefix metric";

/// The kinds that are looked at.
const OPEN: u8 = 1;
const U8: u8 = 3;
const U16: u8 = 4;
const U32: u8 = 5;
const UNREACHABLE: u8 = 9;

/// The ids of the array of TOS entries that version 2 summaries and externals
/// have, and of an entry.
const TOS_METRICS: u8 = 20;
const TOS_ENTRY: u8 = 97;

/// A version, its LS type or function, and what stands there.
#[derive(Clone, Copy, Debug, PartialEq, Eq, PartialOrd, Ord)]
pub struct Place {
    pub version: u8,
    pub function: u16,
    pub what: What,
}

/// How often a value of all ones was at each place; of lists, how many had one.
#[derive(Clone, Debug, Default, PartialEq, Eq)]
pub struct Places(BTreeMap<Place, u64>);

impl Places {
    /// Counts those of a walk's whole strip.
    pub fn count(&mut self, version: u8, strip: &[u8]) {
        let mut scan = Scan {
            places: self,
            version,
            function: 0,
            open: Vec::new(),
            tos: Vec::new(),
        };
        let mut rest = strip;
        while let [kind, ..] = rest {
            let (_, body) = listing::kind(*kind).expect("a kind");
            let (entry, after) = rest.split_at(1 + body);
            scan.entry(entry);
            rest = after;
        }
    }

    /// Adds the counts of others.
    pub fn add(&mut self, others: &Places) {
        for (&place, n) in &others.0 {
            *self.0.entry(place).or_default() += n;
        }
    }

    /// The places that have at least one.
    pub fn seen(&self) -> BTreeSet<Place> {
        self.0.keys().copied().collect()
    }

    /// All places that there are.
    pub fn all() -> BTreeSet<Place> {
        let tables = METRICS.iter().chain(&NUMBERS);
        let places = tables.flat_map(|&(version, functions, whats)| {
            let of = move |&function| whats.iter().map(move |what| place(version, function, what));
            functions.iter().flat_map(of)
        });
        places.collect()
    }
}

fn place(version: u8, function: u16, what: What) -> Place {
    Place {
        version,
        function,
        what,
    }
}

/// A line for each version and LS type or function, unreachable first.
impl fmt::Display for Places {
    fn fmt(&self, f: &mut fmt::Formatter<'_>) -> fmt::Result {
        for (title, tables) in [
            ("unreachable", &METRICS[..]),
            ("number of all ones", &NUMBERS[..]),
        ] {
            for &(version, functions, whats) in tables {
                for &function in functions {
                    let word = if version == 2 { "type" } else { "function" };
                    write!(f, "{title}, version {version} {word} {function}:")?;
                    for (i, &what) in whats.iter().enumerate() {
                        let n = self.0.get(&place(version, function, what)).unwrap_or(&0);
                        write!(f, "{} {what} {n}", if i > 0 { "," } else { "" })?;
                    }
                    writeln!(f)?;
                }
            }
        }
        Ok(())
    }
}

/// What is known at a place of a strip.
struct Scan<'a> {
    places: &'a mut Places,
    version: u8,
    /// The LS type or function of the LSA or header.
    function: u16,
    /// The ids of the containers that are open.
    open: Vec<u8>,
    /// Which metrics of the list of TOS entries are unreachable, so far.
    tos: Vec<bool>,
}

impl Scan<'_> {
    fn add(&mut self, what: What) {
        let place = place(self.version, self.function, what);
        *self.places.0.entry(place).or_default() += 1;
    }

    fn entry(&mut self, entry: &[u8]) {
        let &[kind, id, _, _, _, _, _, _, _, _, ref value @ ..] = entry else {
            // A close alone has no id.
            if self.open.pop() == Some(TOS_METRICS) {
                self.tos_list();
            }
            return;
        };
        let in_tos_list = self.open.last_chunk() == Some(&[TOS_METRICS, TOS_ENTRY]);
        match (self.version, kind, id) {
            (_, OPEN, _) => self.open.push(id),
            (2, U8, 2) => self.function = number(value) as u16,
            (3, U16, 1) => self.function = number(value) as u16 & 0x1FFF,
            (2, UNREACHABLE, 19) | (3, UNREACHABLE, 17) => self.add(METRIC),
            (2, UNREACHABLE | U32, 82) if in_tos_list => self.tos.push(kind == UNREACHABLE),
            (version, UNREACHABLE, id) => panic!("version {version}: no metric has id {id}"),
            (version, U16 | U32, id) => {
                if let Some(what) = all_ones(version, kind, id, number(value)) {
                    self.add(what);
                }
            }
            _ => {}
        }
    }

    /// A list of TOS entries has ended.
    fn tos_list(&mut self) {
        let list = std::mem::take(&mut self.tos);
        let several = list.len() > 1;
        for (i, _) in list
            .iter()
            .enumerate()
            .filter(|&(_, &unreachable)| unreachable)
        {
            self.add(match i {
                0 if several => TOS_FIRST,
                0 => TOS_ALONE,
                i if i + 1 == list.len() => TOS_LAST,
                _ => TOS_BETWEEN,
            });
        }
        if several && list.contains(&true) {
            self.add(if list.contains(&false) {
                TOS_SOME
            } else {
                TOS_ALL
            });
        }
    }
}

/// The value of a field of up to 32 bits.
fn number(value: &[u8]) -> u32 {
    value.iter().fold(0, |n, &byte| n << 8 | u32::from(byte))
}

/// What has this value, if it is all ones and no 24-bit metric.
fn all_ones(version: u8, kind: u8, id: u8, value: u32) -> Option<What> {
    let what = match (version, kind, id, value) {
        (2, U32, 9, 0xFF_FFFF) => OPAQUE_ID,
        (2, U32, 22, 0xFF_FFFF) => TAG,
        (2, U32, 84, 0xFF_FFFF) => TOS_TAG,
        (2, U16, 68, 0xFFFF) => LINK_METRIC,
        (2, U32, 82, 0xFFFF) => LINK_TOS_METRIC,
        (3, U32, 14, 0xFF_FFFF) => OPTIONS,
        (3, U32, 24, 0xFF_FFFF) => TAG,
        (3, U16, 65, 0xFFFF) => LINK_METRIC,
        (3, U16, 82, 0xFFFF) => PREFIX_METRIC,
        _ => return None,
    };
    Some(what)
}
