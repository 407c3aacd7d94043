//! The rule of the requirements, sentence by sentence: each refusal's condition
//! by itself, and each LSA by a search through all rows.

use std::collections::BTreeSet;

use ospf_strip::Row;

/// What an update is taken with, and against.
#[derive(Clone, Debug, PartialEq, Eq)]
pub struct Call {
    pub version: u8,
    pub data: Vec<u8>,
    pub count: u32,
    pub offset: u64,
    pub rows: Vec<Row>,
}

/// Version, LS type, Link State ID and Advertising Router.
pub type Identity = (u8, u16, u32, u32);

pub fn identity(row: &Row) -> Identity {
    let Row {
        version, ls_type, ..
    } = *row;
    (version, ls_type, row.link_state_id, row.advertising_router)
}

/// Why a call is turned down, in the order in which it is asked. 11 has two
/// reasons, of which a call cannot tell which it was.
#[derive(Clone, Copy, Debug, PartialEq, Eq, PartialOrd, Ord)]
pub enum Reason {
    Version,
    TooLong,
    Offset,
    TooShort,
    AgeOfLsa,
    AgeOfRow,
    SharedIdentity,
    NoFreeRow,
}

pub const REASONS: [Reason; 8] = [
    Reason::Version,
    Reason::TooLong,
    Reason::Offset,
    Reason::TooShort,
    Reason::AgeOfLsa,
    Reason::AgeOfRow,
    Reason::SharedIdentity,
    Reason::NoFreeRow,
];

impl Reason {
    pub fn number(self) -> u8 {
        match self {
            Reason::Version => 1,
            Reason::TooLong => 2,
            Reason::Offset => 3,
            Reason::TooShort => 4,
            Reason::AgeOfLsa | Reason::AgeOfRow => 11,
            Reason::SharedIdentity => 14,
            Reason::NoFreeRow => 15,
        }
    }

    /// Whether it holds, whatever else does.
    fn holds(self, call: &Call, lsas: &[Row]) -> bool {
        let mut used = call.rows.iter().filter(|row| row.used != 0);
        match self {
            Reason::Version => call.version != 2 && call.version != 3,
            Reason::TooLong => call.data.len() > 65_535,
            Reason::Offset => call.offset > 4_294_901_760,
            Reason::TooShort => call.data.len() < 4,
            Reason::AgeOfLsa => lsas.iter().any(|lsa| lsa.age > 3_600),
            Reason::AgeOfRow => used.any(|row| row.age > 3_600),
            Reason::SharedIdentity => {
                let all = used.clone().count();
                all > used.map(identity).collect::<BTreeSet<_>>().len()
            }
            Reason::NoFreeRow => {
                let free = call.rows.len() - used.count();
                new_identities(&call.rows, lsas).len() > free
            }
        }
    }
}

/// The identities of LSAs that no used row has.
pub fn new_identities(rows: &[Row], lsas: &[Row]) -> BTreeSet<Identity> {
    let used = rows.iter().filter(|row| row.used != 0);
    let known: BTreeSet<Identity> = used.map(identity).collect();
    let identities = lsas.iter().map(identity);
    identities.filter(|of| !known.contains(of)).collect()
}

/// A number of the packet.
fn number(bytes: &[u8]) -> u32 {
    bytes.iter().fold(0, |n, &byte| n << 8 | u32::from(byte))
}

/// The LSAs of an update's body, each as the row that it would be written to,
/// and the place where they end: from 4 on, one after another, while fewer than
/// the count are taken, at least 20 bytes are left, and the declared length is
/// at least 20 and fits.
pub fn cut(version: u8, data: &[u8], count: u32) -> (Vec<Row>, usize) {
    let mut lsas = Vec::new();
    let mut place = 4;
    while lsas.len() < count as usize && place + 20 <= data.len() {
        let header = &data[place..place + 20];
        let declared = number(&header[18..20]) as usize;
        if declared < 20 || place + declared > data.len() {
            break;
        }
        lsas.push(row(version, header));
        place += declared;
    }
    (lsas, place)
}

/// The row of a header: RFC 2328 A.4.1, RFC 5340 A.4.2.
fn row(version: u8, header: &[u8]) -> Row {
    let ls_type = if version == 2 {
        &header[3..4]
    } else {
        &header[2..4]
    };
    Row {
        version,
        used: 1,
        ls_type: number(ls_type) as u16,
        link_state_id: number(&header[4..8]),
        advertising_router: number(&header[8..12]),
        sequence: number(&header[12..16]),
        checksum: number(&header[16..18]) as u16,
        age: number(&header[..2]) as u16,
    }
}

/// Which of an LSA and a row is newer.
#[derive(Clone, Copy, Debug, PartialEq, Eq)]
enum Newer {
    Lsa,
    Row,
    Neither,
}

/// RFC 2328 13.1: the larger signed sequence number; then the larger checksum;
/// then the one whose age alone is MaxAge; then the younger, if the ages differ
/// by more than MaxAgeDiff.
fn newer(lsa: &Row, row: &Row) -> Newer {
    let (a, b) = (lsa.sequence as i32, row.sequence as i32);
    if a != b {
        return if a > b { Newer::Lsa } else { Newer::Row };
    }
    let (a, b) = (lsa.checksum, row.checksum);
    if a != b {
        return if a > b { Newer::Lsa } else { Newer::Row };
    }
    let (a, b) = (lsa.age, row.age);
    match (a == 3_600, b == 3_600) {
        (true, false) => Newer::Lsa,
        (false, true) => Newer::Row,
        _ if a.abs_diff(b) <= 900 => Newer::Neither,
        _ if a < b => Newer::Lsa,
        _ => Newer::Row,
    }
}

/// What became of one LSA.
#[derive(Clone, Copy, Debug, PartialEq, Eq)]
pub enum Outcome {
    Replaces,
    Same,
    Older,
    Added,
}

/// Takes one LSA, and says at which row.
fn take(lsa: &Row, rows: &mut [Row]) -> (Outcome, usize) {
    let of_it = |row: &Row| row.used != 0 && identity(row) == identity(lsa);
    if let Some(place) = rows.iter().position(of_it) {
        let outcome = match newer(lsa, &rows[place]) {
            Newer::Lsa => Outcome::Replaces,
            Newer::Row => Outcome::Older,
            Newer::Neither => Outcome::Same,
        };
        if outcome == Outcome::Replaces {
            rows[place] = *lsa;
        }
        return (outcome, place);
    }
    let free = rows.iter().position(|row| row.used == 0);
    let free = free.expect("new identities do not outnumber the unused rows");
    rows[free] = *lsa;
    (Outcome::Added, free)
}

/// What a call comes to.
#[derive(Clone, Debug, PartialEq, Eq)]
pub struct Told {
    /// The LSAs that the update is cut into, and the place where they end.
    pub lsas: Vec<Row>,
    pub end: usize,
    /// Why it is turned down, all that holds.
    pub reasons: Vec<Reason>,
    /// Of an accepted call, what became of each LSA, and at which row.
    pub outcomes: Vec<(Outcome, usize)>,
    /// The rows afterwards.
    pub rows: Vec<Row>,
}

impl Told {
    /// As the export `ospf_book_update`.
    pub fn answer(&self) -> u64 {
        if let Some(first) = self.reasons.first() {
            return u64::from(first.number()) << 32;
        }
        let count = |of| {
            self.outcomes
                .iter()
                .filter(|(outcome, _)| *outcome == of)
                .count() as u64
        };
        count(Outcome::Added) << 40 | count(Outcome::Replaces)
    }
}

pub fn told(call: &Call) -> Told {
    let (lsas, end) = cut(call.version, &call.data, call.count);
    let mut reasons = REASONS.to_vec();
    reasons.retain(|reason| reason.holds(call, &lsas));
    let mut rows = call.rows.clone();
    let outcomes = if reasons.is_empty() {
        lsas.iter().map(|lsa| take(lsa, &mut rows)).collect()
    } else {
        Vec::new()
    };
    Told {
        lsas,
        end,
        reasons,
        outcomes,
        rows,
    }
}
