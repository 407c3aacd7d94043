//! The comparison on its own: nothing is found in the second implementation nor
//! in a third, and each of several misreadings of the third is found.

use std::cmp::Ordering;

use book::naive::{Call, told};
use book::{Counts, Shown, compare, compare_within};
use ospf_strip::Row;

const SEED: u64 = 3;
const CALLS: usize = 40_000;

/// The second implementation in the shape of the export.
fn naive(version: u8, data: &[u8], count: u32, offset: u64, rows: &mut [Row]) -> u64 {
    let told = told(&Call {
        version,
        data: data.to_vec(),
        count,
        offset,
        rows: rows.to_vec(),
    });
    rows.copy_from_slice(&told.rows);
    told.answer()
}

/// Nothing is found, and everything is shown by far fewer calls than ./test makes.
#[test]
fn nothing_in_the_second_implementation() {
    let counts = compare(naive, SEED, CALLS).expect("no difference");
    assert_eq!(counts.missing(), []);
}

/// What no call shows is missing.
#[test]
fn missing_is_said() {
    assert_eq!(Counts::default().missing(), Shown::all());
    let one = compare(naive, SEED, 1).expect("no difference");
    for shown in Shown::all() {
        let is_missing = one.missing().contains(&shown);
        assert_eq!(is_missing, !one.0.contains_key(&shown), "{shown:?}");
    }
}

/// How the third implementation reads the rule: right, or by one misreading. One
/// list has them all, so that none is left untried.
macro_rules! readings {
    ($($wrong:ident,)*) => {
        #[derive(Clone, Copy, Debug, PartialEq)]
        enum Reading {
            Right,
            $($wrong,)*
        }

        const WRONG: [Reading; 35] = [$(Reading::$wrong,)*];
    };
}

readings! {
    NoVersionInIdentity,
    NoTypeInIdentity,
    NoIdInIdentity,
    NoRouterInIdentity,
    TypesOf13Bits,
    TypesWrittenBy13Bits,
    OptionsInTheType,
    SameReplaces,
    OlderReplaces,
    AnyReplaces,
    UnsignedSequences,
    AgesOf901AreTheSame,
    LastUnusedRow,
    UnusedRowMet,
    NewTakesNoSecondLook,
    CountsSwapped,
    AdditionsInTheNumber,
    MarkOf1Alone,
    MarkKept,
    SharedIdentityBeforeAge,
    NoFreeRowBeforeSharedIdentity,
    OffsetAfterTooShort,
    NoFreeRowByLsas,
    NoFreeRowIfFull,
    RefusalThatWrites,
    RefusalThatCounts,
    PastTheCount,
    PastTheLength,
    LengthOf19,
    UnusedAges,
    NoRowAges,
    Age3600,
    UnusedIdentities,
    HashesShared,
    NextRowWritten,
}

use Reading::*;

fn be16(bytes: &[u8], at: usize) -> u16 {
    u16::from_be_bytes([bytes[at], bytes[at + 1]])
}

fn be32(bytes: &[u8], at: usize) -> u32 {
    u32::from(be16(bytes, at)) << 16 | u32::from(be16(bytes, at + 2))
}

/// 17 bits of an identity.
fn hash(row: &Row) -> u64 {
    let ids = u64::from(row.link_state_id) << 32 | u64::from(row.advertising_router);
    let of_type = u64::from(row.ls_type) << 8 | u64::from(row.version);
    (ids ^ of_type << 11).wrapping_mul(0x9E37_79B9_7F4A_7C15) >> 47
}

impl Reading {
    fn is_used(self, row: &Row) -> bool {
        match self {
            MarkOf1Alone => row.used == 1,
            _ => row.used != 0,
        }
    }

    fn alike(self, a: &Row, b: &Row) -> bool {
        let of_type = |row: &Row| match self {
            TypesOf13Bits if row.version == 3 => row.ls_type & 0x1FFF,
            _ => row.ls_type,
        };
        (self == NoVersionInIdentity || a.version == b.version)
            && (self == NoTypeInIdentity || of_type(a) == of_type(b))
            && (self == NoIdInIdentity || a.link_state_id == b.link_state_id)
            && (self == NoRouterInIdentity || a.advertising_router == b.advertising_router)
    }

    fn is_of(self, lsa: &Row, row: &Row) -> bool {
        (self == UnusedRowMet || self.is_used(row)) && self.alike(lsa, row)
    }

    fn replaces(self, lsa: &Row, row: &Row) -> bool {
        let sign = u32::from(self != UnsignedSequences) << 31;
        let rank = |row: &Row| (row.sequence ^ sign, row.checksum, row.age == 3_600);
        let apart = 900 + u16::from(self == AgesOf901AreTheSame);
        let younger = if lsa.age.abs_diff(row.age) > apart {
            row.age.cmp(&lsa.age)
        } else {
            Ordering::Equal
        };
        let order = rank(lsa).cmp(&rank(row)).then(younger);
        match self {
            SameReplaces => order.is_ge(),
            OlderReplaces => order.is_lt(),
            AnyReplaces => true,
            _ => order.is_gt(),
        }
    }

    fn lsas(self, version: u8, data: &[u8], count: u32) -> Vec<Row> {
        let mut lsas = Vec::new();
        let mut rest = data.get(4..).unwrap_or_default();
        while (self == PastTheCount || lsas.len() < count as usize) && rest.len() >= 20 {
            let declared = usize::from(be16(rest, 18));
            let least = if self == LengthOf19 { 19 } else { 20 };
            let fits = declared >= least && declared <= rest.len();
            if !fits && self != PastTheLength {
                break;
            }
            let ls_type = match (version, self) {
                (2, OptionsInTheType) => be16(rest, 2),
                (2, _) => rest[3].into(),
                (_, TypesWrittenBy13Bits) => be16(rest, 2) & 0x1FFF,
                _ => be16(rest, 2),
            };
            lsas.push(Row {
                version,
                used: 1,
                ls_type,
                link_state_id: be32(rest, 4),
                advertising_router: be32(rest, 8),
                sequence: be32(rest, 12),
                checksum: be16(rest, 16),
                age: be16(rest, 0),
            });
            rest = &rest[declared.clamp(20, rest.len())..];
        }
        lsas
    }

    /// The number of a refusal, or 0.
    fn refusal(self, call: (u8, &[u8], u64), lsas: &[Row], rows: &[Row]) -> u8 {
        let (version, data, offset) = call;
        let most = if self == Age3600 { 3_599 } else { 3_600 };
        let old_lsa = lsas.iter().any(|lsa| lsa.age > most);
        let old_row = rows.iter().any(|row| {
            (self == UnusedAges || self.is_used(row)) && self != NoRowAges && row.age > most
        });
        let has = |row: &Row| self == UnusedIdentities || self.is_used(row);
        let shared = (0..rows.len()).any(|i| {
            let later = &rows[i + 1..];
            let is_same = |row: &Row| match self {
                HashesShared => hash(&rows[i]) == hash(row),
                _ => self.alike(&rows[i], row),
            };
            has(&rows[i]) && later.iter().any(|row| has(row) && is_same(row))
        });
        let free = rows.iter().filter(|row| !self.is_used(row)).count();
        let is_new = |i: usize| {
            let known = rows.iter().any(|row| self.is_of(&lsas[i], row));
            let earlier = lsas[..i].iter().any(|lsa| self.alike(lsa, &lsas[i]));
            !known && (self == NoFreeRowByLsas || !earlier)
        };
        let new = (0..lsas.len()).filter(|&i| is_new(i)).count();
        let none_free = if self == NoFreeRowIfFull {
            new > 0 && new >= free
        } else {
            new > free
        };
        let mut reasons = [
            (1, !matches!(version, 2 | 3)),
            (2, data.len() > 65_535),
            (3, offset > 4_294_901_760),
            (4, data.len() < 4),
            (11, old_lsa || old_row),
            (14, shared),
            (15, none_free),
        ];
        match self {
            OffsetAfterTooShort => reasons.swap(2, 3),
            SharedIdentityBeforeAge => reasons.swap(4, 5),
            NoFreeRowBeforeSharedIdentity => reasons.swap(5, 6),
            _ => {}
        }
        let first = reasons.into_iter().find(|(_, holds)| *holds);
        first.map_or(0, |(number, _)| number)
    }

    fn update(self, version: u8, data: &[u8], count: u32, offset: u64, rows: &mut [Row]) -> u64 {
        let lsas = self.lsas(version, data, count);
        let number = self.refusal((version, data, offset), &lsas, rows);
        if number != 0 {
            if self == RefusalThatWrites && number == 15 {
                let free = rows.iter_mut().find(|row| row.used == 0);
                free.into_iter().for_each(|row| *row = lsas[0]);
            }
            let counted = u64::from(self == RefusalThatCounts && number == 15);
            return u64::from(number) << 32 | counted;
        }
        let (mut replaced, mut added) = (0, 0);
        let before = rows.to_vec();
        for lsa in &lsas {
            let known = |row: &Row| self.is_of(lsa, row);
            let place = if self == NewTakesNoSecondLook {
                before.iter().position(known)
            } else {
                rows.iter().position(known)
            };
            let Some(place) = place else {
                let free = |row: &Row| !self.is_used(row);
                let free = if self == LastUnusedRow {
                    rows.iter().rposition(free)
                } else {
                    rows.iter().position(free)
                };
                if let Some(free) = free {
                    rows[free] = *lsa;
                    added += 1;
                }
                continue;
            };
            if self.replaces(lsa, &rows[place]) {
                let mark = rows[place].used;
                rows[place] = *lsa;
                if self == MarkKept {
                    rows[place].used = mark;
                }
                if self == NextRowWritten && place + 1 < rows.len() {
                    rows[place + 1].age = 0;
                }
                replaced += 1;
            }
        }
        match self {
            CountsSwapped => replaced << 40 | added,
            AdditionsInTheNumber => added << 32 | replaced,
            _ => added << 40 | replaced,
        }
    }
}

fn is_found(reading: Reading) -> bool {
    let update = |version, data: &[u8], count, offset, rows: &mut [Row]| {
        reading.update(version, data, count, offset, rows)
    };
    compare(update, SEED, CALLS).is_err()
}

#[test]
fn nothing_in_the_third_implementation() {
    assert!(!is_found(Right));
}

#[test]
fn misreadings_are_found() {
    for reading in WRONG {
        assert!(is_found(reading), "{reading:?}");
    }
}

/// A row before the lent ones, or after them, that is written.
#[test]
fn rows_next_to_the_lent_ones() {
    for before in [true, false] {
        let beyond = compare_within(SEED, 1_000, |call, rows, lent| {
            let next_to = if before { lent.start - 1 } else { lent.end };
            let lent = &mut rows[lent];
            let answer = naive(call.version, &call.data, call.count, call.offset, lent);
            rows[next_to].age ^= u16::from(answer == 1);
            answer
        });
        assert!(beyond.is_err());
    }
}

/// One row too many, before the lent ones or after them, or one too few.
#[test]
fn other_rows_than_the_lent_ones() {
    for (first, last) in [(-1, 0), (0, 1), (1, 0), (0, -1)] {
        let others = compare_within(SEED, 1_000, |call, rows, lent| {
            let from = lent.start.saturating_add_signed(first);
            let to = lent.end.saturating_add_signed(last).max(from);
            let rows = &mut rows[from..to];
            naive(call.version, &call.data, call.count, call.offset, rows)
        });
        assert!(others.is_err(), "{first} {last}");
    }
}
