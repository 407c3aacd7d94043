//! Compares implementations of an update that is taken against rows, in one
//! process: what they answer, and every row afterwards, with rows next to them
//! on both sides.

mod calls;
pub mod naive;

use std::collections::BTreeMap;
use std::fmt;
use std::ops::Range;

use inputs::Rng;
use naive::{Call, Outcome, REASONS, Reason, Told, identity, new_identities, told};
use ospf_strip::{Row, exports};

/// The shape of the static library's export.
pub type Update = fn(version: u8, data: &[u8], count: u32, offset: u64, rows: &mut [Row]) -> u64;

/// The proved function, behind `ospf-strip`.
pub const PROVED: Update = exports::ospf_book_update;

/// Rows on each side of the lent ones that must stay as they are.
const MARGIN: usize = 3;

/// What a call shows. A call may show more than one.
#[derive(Clone, Copy, Debug, PartialEq, Eq, PartialOrd, Ord)]
pub enum Shown {
    /// It is turned down for a reason, and no other holds.
    Alone(Reason),
    /// It is turned down for the first reason, and the second holds, too.
    Before(Reason, Reason),
    /// It is accepted, and no row changes.
    Nothing,
    /// Rows are replaced alone, added alone, or both.
    Replaced,
    Added,
    Both,
    /// An LSA is left as the same, or as older.
    SameLeft,
    OlderLeft,
    /// An LSA meets a row that the same update added, and replaces or leaves it.
    MeetsAdded,
    /// There are just as many unused rows as new identities.
    JustEnough,
    /// New LSAs outnumber the unused rows, but their identities do not.
    MoreLsas,
    /// A row whose mark is above 1 is met.
    MarkAbove1,
    /// An unused row has the identity of an LSA, or an age above 3,600.
    UnusedAlike,
    UnusedOld,
    /// The count, or a declared length, ends the LSAs before the data do.
    CutByCount,
    CutByLength,
    /// There are no rows, or at least two hundred.
    NoRows,
    ManyRows,
}

impl Shown {
    /// All that there is to be shown.
    pub fn all() -> Vec<Shown> {
        use Reason::{AgeOfLsa, NoFreeRow, TooLong, TooShort};
        let mut all: Vec<Shown> = REASONS.into_iter().map(Shown::Alone).collect();
        for (place, &first) in REASONS.iter().enumerate() {
            for &second in &REASONS[place + 1..] {
                // Too few bytes are not too many, and hold no LSA.
                let never = [
                    (TooLong, TooShort),
                    (TooShort, AgeOfLsa),
                    (TooShort, NoFreeRow),
                ];
                if !never.contains(&(first, second)) {
                    all.push(Shown::Before(first, second));
                }
            }
        }
        all.extend([
            Shown::Nothing,
            Shown::Replaced,
            Shown::Added,
            Shown::Both,
            Shown::SameLeft,
            Shown::OlderLeft,
            Shown::MeetsAdded,
            Shown::JustEnough,
            Shown::MoreLsas,
            Shown::MarkAbove1,
            Shown::UnusedAlike,
            Shown::UnusedOld,
            Shown::CutByCount,
            Shown::CutByLength,
            Shown::NoRows,
            Shown::ManyRows,
        ]);
        all
    }

    /// What this call shows, of which this was told.
    fn of(call: &Call, told: &Told) -> Vec<Shown> {
        match told.reasons.as_slice() {
            [] => accepted(call, told),
            [reason] => vec![Shown::Alone(*reason)],
            [first, rest @ ..] => rest.iter().map(|&r| Shown::Before(*first, r)).collect(),
        }
    }
}

fn accepted(call: &Call, told: &Told) -> Vec<Shown> {
    let outcomes = &told.outcomes;
    let has = |of| outcomes.iter().any(|(outcome, _)| *outcome == of);
    let changed = match (has(Outcome::Replaces), has(Outcome::Added)) {
        (false, false) => Shown::Nothing,
        (true, false) => Shown::Replaced,
        (false, true) => Shown::Added,
        (true, true) => Shown::Both,
    };
    let unused = || call.rows.iter().filter(|row| row.used == 0);
    let used_at = |place: usize| call.rows[place].used != 0;
    let met = || {
        outcomes
            .iter()
            .filter(|(outcome, _)| *outcome != Outcome::Added)
    };
    let new = new_identities(&call.rows, &told.lsas);
    let of_new = told.lsas.iter().filter(|lsa| new.contains(&identity(lsa)));
    // Another header would fit after the last LSA.
    let more = told.end + 20 <= call.data.len();
    let counted = told.lsas.len() == call.count as usize;
    let shown = [
        (changed, true),
        (Shown::SameLeft, has(Outcome::Same)),
        (Shown::OlderLeft, has(Outcome::Older)),
        (Shown::MeetsAdded, met().any(|(_, place)| !used_at(*place))),
        (
            Shown::JustEnough,
            !new.is_empty() && new.len() == unused().count(),
        ),
        (Shown::MoreLsas, of_new.count() > unused().count()),
        (
            Shown::MarkAbove1,
            met().any(|(_, place)| call.rows[*place].used > 1),
        ),
        (
            Shown::UnusedAlike,
            unused().any(|row| told.lsas.iter().any(|lsa| identity(lsa) == identity(row))),
        ),
        (Shown::UnusedOld, unused().any(|row| row.age > 3_600)),
        (Shown::CutByCount, more && counted),
        (Shown::CutByLength, more && !counted),
        (Shown::NoRows, call.rows.is_empty()),
        (Shown::ManyRows, call.rows.len() >= 200),
    ];
    let shown = shown.into_iter().filter(|(_, is_shown)| *is_shown);
    shown.map(|(shown, _)| shown).collect()
}

/// How many calls showed what.
#[derive(Clone, Debug, Default, PartialEq, Eq)]
pub struct Counts(pub BTreeMap<Shown, u64>);

impl Counts {
    /// Counts the calls of another part, too.
    pub fn add(&mut self, other: Counts) {
        for (shown, n) in other.0 {
            *self.0.entry(shown).or_default() += n;
        }
    }

    /// What no call showed.
    pub fn missing(&self) -> Vec<Shown> {
        let mut all = Shown::all();
        all.retain(|shown| !self.0.contains_key(shown));
        all
    }
}

impl fmt::Display for Counts {
    fn fmt(&self, f: &mut fmt::Formatter<'_>) -> fmt::Result {
        self.0
            .iter()
            .try_for_each(|(shown, n)| writeln!(f, "{shown:?}: {n}"))
    }
}

/// A call on which an implementation disagrees with the second one: its answer
/// and rows, with those next to them.
#[derive(Clone, Debug, PartialEq, Eq)]
pub struct Difference {
    pub call: Call,
    pub expected: (u64, Vec<Row>),
    pub found: (u64, Vec<Row>),
}

impl fmt::Display for Difference {
    fn fmt(&self, f: &mut fmt::Formatter<'_>) -> fmt::Result {
        let (expected, found) = (self.expected.0, self.found.0);
        writeln!(f, "answer {found:#x}, expected {expected:#x}")?;
        let rows = self.expected.1.iter().zip(&self.found.1);
        for (place, (expected, found)) in rows.enumerate().filter(|(_, (e, f))| e != f) {
            let place = place as isize - MARGIN as isize;
            writeln!(f, "row {place} is {found:?}, expected {expected:?}")?;
        }
        let Call {
            version,
            data,
            count,
            offset,
            rows,
        } = &self.call;
        writeln!(f, "version {version}, count {count}, offset {offset}")?;
        for row in rows {
            writeln!(f, "{row:?}")?;
        }
        write!(f, "data of {} bytes:", data.len())?;
        data.iter().try_for_each(|byte| write!(f, " {byte:02x}"))
    }
}

/// Compares an implementation with the second one, on so many calls.
pub fn compare(
    found: impl Fn(u8, &[u8], u32, u64, &mut [Row]) -> u64,
    seed: u64,
    calls: usize,
) -> Result<Counts, Box<Difference>> {
    compare_within(seed, calls, |call, rows, lent| {
        let lent = &mut rows[lent];
        found(call.version, &call.data, call.count, call.offset, lent)
    })
}

/// The same of one that is handed the rows next to the lent ones, too, and where
/// these are.
pub fn compare_within(
    seed: u64,
    calls: usize,
    found: impl Fn(&Call, &mut [Row], Range<usize>) -> u64,
) -> Result<Counts, Box<Difference>> {
    let mut rng = Rng::new(seed);
    let mut counts = Counts::default();
    for _ in 0..calls {
        let call = calls::call(&mut rng);
        let told = told(&call);
        let next_to = [(); 2 * MARGIN].map(|()| beside(&mut rng, &told.lsas));
        let (before, after) = next_to.split_at(MARGIN);
        let expected = (told.answer(), [before, &told.rows, after].concat());
        let mut rows = [before, &call.rows, after].concat();
        let lent = MARGIN..MARGIN + call.rows.len();
        let answer = found(&call, &mut rows, lent);
        let found = (answer, rows);
        if found != expected {
            return Err(Box::new(Difference {
                call,
                expected,
                found,
            }));
        }
        for shown in Shown::of(&call, &told) {
            *counts.0.entry(shown).or_default() += 1;
        }
    }
    Ok(counts)
}

/// A row next to the lent ones: unused, so that one too many would be taken, or
/// used, and then often an older instance of an LSA, or too old.
fn beside(rng: &mut Rng, lsas: &[Row]) -> Row {
    let row = Row {
        version: rng.byte(),
        used: rng.pick(&[0, 1]),
        ls_type: rng.bits() as u16,
        link_state_id: rng.bits() as u32,
        advertising_router: rng.bits() as u32,
        sequence: 0x8000_0000,
        checksum: 0,
        age: rng.bits() as u16,
    };
    if lsas.is_empty() || rng.below(2) == 0 {
        return row;
    }
    let lsa = rng.pick(lsas);
    Row {
        used: row.used,
        sequence: row.sequence,
        checksum: row.checksum,
        ..lsa
    }
}
