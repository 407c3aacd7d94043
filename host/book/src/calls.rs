//! Calls: an update and a table of rows that have to do with each other.

use std::collections::BTreeSet;

use inputs::{MOST_OFFSET, Rng, update};
use ospf_strip::Row;

use crate::naive::{Call, Identity, Reason, cut, identity, new_identities};

/// One call. Each reason to turn it down is put in by itself, so that all of
/// them come alone and together.
pub fn call(rng: &mut Rng) -> Call {
    let version = if rng.below(14) == 0 {
        rng.pick(&[0, 1, 4, 7, 130, 255])
    } else {
        rng.pick(&[2, 3])
    };
    let known = Known::new(rng, version);
    let mut rows = used_rows(rng, &known);
    if put_in(rng, Reason::AgeOfRow) && !rows.is_empty() {
        let place = rng.below(rows.len());
        rows[place].age = rng.pick(&TOO_OLD);
    }
    if put_in(rng, Reason::SharedIdentity) && !rows.is_empty() {
        let other = rng.pick(&rows);
        rows.push(instance(rng, identity(&other)));
    }
    let (data, count) = update_of(rng, version, &known, &rows);
    let offset = if put_in(rng, Reason::Offset) {
        let beyond = 1 + rng.below(99) as u64;
        rng.pick(&[MOST_OFFSET + 1, MOST_OFFSET + beyond, u64::MAX])
    } else {
        rng.offset()
    };
    // As many unused rows as there are new identities, fewer or more.
    let (lsas, _) = cut(version, &data, count);
    let needed = new_identities(&rows, &lsas).len();
    let free = match rng.below(3) {
        _ if needed > 0 && put_in(rng, Reason::NoFreeRow) => rng.below(needed),
        0 => needed,
        _ => needed + rng.below(6),
    };
    for _ in 0..free {
        let place = rng.below(rows.len() + 1);
        rows.insert(place, unused(rng, version, &known, &rows));
    }
    Call {
        version,
        data,
        count,
        offset,
        rows,
    }
}

/// Whether this reason is to hold in a call. Long data take long.
fn put_in(rng: &mut Rng, reason: Reason) -> bool {
    let of = if reason == Reason::TooLong { 60 } else { 14 };
    rng.below(of) == 0
}

const AGES: [u16; 10] = [0, 1, 899, 900, 901, 1_800, 1_801, 2_699, 3_599, 3_600];
const TOO_OLD: [u16; 4] = [3_601, 3_602, 0x1000, 0xFFFF];
/// The first, the next, the largest, the smallest, and those around 0.
const SEQUENCES: [u32; 6] = [
    0x8000_0001,
    0x8000_0002,
    0x7FFF_FFFF,
    0x8000_0000,
    0xFFFF_FFFF,
    0,
];
const CHECKSUMS: [u16; 4] = [0x1234, 0x1235, 0, 0xFFFF];

/// A used row of this identity. Most instances have the same sequence number,
/// and most of these the same checksum, so that their ages matter.
fn instance(rng: &mut Rng, (version, ls_type, link_state_id, router): Identity) -> Row {
    let often = |rng: &mut Rng| rng.below(3) > 0;
    Row {
        version,
        used: if often(rng) { 1 } else { rng.byte().max(1) },
        ls_type,
        link_state_id,
        advertising_router: router,
        sequence: if often(rng) {
            SEQUENCES[0]
        } else {
            rng.pick(&SEQUENCES)
        },
        checksum: if often(rng) {
            CHECKSUMS[0]
        } else {
            rng.pick(&CHECKSUMS)
        },
        age: rng.pick(&AGES),
    }
}

/// Where identities are taken from.
struct Known {
    version: u8,
    /// How many link state ids there are, by which most identities differ.
    spread: usize,
}

impl Known {
    /// Few or, now and then, some hundred.
    fn new(rng: &mut Rng, version: u8) -> Known {
        let most = rng.pick(&[4, 4, 4, 8, 8, 20, 60, 500]);
        let most = if rng.below(6) == 0 { most } else { most.min(8) };
        Known {
            version,
            spread: 1 + rng.below(most),
        }
    }

    /// An identity of this version. Those that differ do so in one field, often
    /// in one bit; types of version 3 in the bits above the 13 of the function.
    fn identity(&self, rng: &mut Rng, version: u8) -> Identity {
        let ls_type = if version == 2 {
            rng.pick(&[1, 1, 2, 5, 10, 255])
        } else {
            rng.pick(&[0x2001, 0x2001, 0x4001, 0x0001, 0xA001, 0x2009, 5, 0xFFFF])
        };
        let id = 0x0A00_0000 + rng.below(self.spread) as u32;
        let high = rng.pick(&[0, 0, 0, 0x8000_0000]);
        let router = rng.pick(&[0x0A00_0001, 0x0A00_0001, 0x0A00_0002, 0x8A00_0001]);
        (version, ls_type, id ^ high, router)
    }

    /// One for a row: now and then of the other version, or as no LSA has it.
    fn of_row(&self, rng: &mut Rng) -> Identity {
        let other = rng.pick(&[2, 3, 2, 3, 0, 9]);
        let version = if rng.below(4) == 0 {
            other
        } else {
            self.version
        };
        let mut of_row = self.identity(rng, version);
        if rng.below(8) == 0 {
            of_row.1 ^= 0x0100;
        }
        of_row
    }
}

/// Used rows, of which no two share an identity.
fn used_rows(rng: &mut Rng, known: &Known) -> Vec<Row> {
    let tries = rng.below(2 * known.spread + 2);
    let identities: BTreeSet<Identity> = (0..tries).map(|_| known.of_row(rng)).collect();
    let mut rows: Vec<Row> = Vec::new();
    for of_row in identities {
        let place = rng.below(rows.len() + 1);
        rows.insert(place, instance(rng, of_row));
    }
    rows
}

/// An unused row, which may look like a used one, or like that of an LSA.
fn unused(rng: &mut Rng, version: u8, known: &Known, rows: &[Row]) -> Row {
    let of_row = match rng.below(4) {
        0 if !rows.is_empty() => identity(&rng.pick(rows)),
        1 | 2 => known.identity(rng, version),
        _ => (rng.byte(), rng.bits() as u16, rng.bits() as u32, 0),
    };
    let mut row = instance(rng, of_row);
    row.used = 0;
    if rng.below(3) == 0 {
        row.age = rng.pick(&TOO_OLD);
    }
    row
}

/// An update's body and the count that it is taken with.
fn update_of(rng: &mut Rng, version: u8, known: &Known, rows: &[Row]) -> (Vec<u8>, u32) {
    let most = rng.pick(&[1, 4, 4, 8, 8, known.spread + 2]);
    let number = rng.below(most + 1);
    let mut taken: Vec<Identity> = Vec::new();
    for _ in 0..number {
        let lsa = match rng.below(8) {
            0..=2 if !rows.is_empty() => identity(&rng.pick(rows)),
            3..=4 if !taken.is_empty() => rng.pick(&taken),
            _ => known.identity(rng, version),
        };
        taken.push(lsa);
    }
    let mut records: Vec<Vec<u8>> = taken.iter().map(|&lsa| record(rng, lsa)).collect();
    let count = match rng.below(8) {
        0 => rng.below(number + 1),
        1 => number + 1,
        2 => u32::MAX as usize,
        _ => number,
    };
    if number > 0 && put_in(rng, Reason::AgeOfLsa) {
        let place = rng.below(number);
        set_age(rng, &mut records[place]);
    }
    if number > 0 && rng.below(6) == 0 {
        let place = rng.below(number);
        declare(rng, &mut records[place]);
    }
    // What stands past the count is not looked at.
    for record in records.iter_mut().skip(count) {
        if rng.below(2) == 0 {
            set_age(rng, record);
        }
    }
    let mut data = update(rng.bits() as u32, &records);
    if rng.below(4) == 0 {
        let rest = rng.below(30);
        data.extend(rng.bytes(rest));
    }
    if put_in(rng, Reason::TooShort) {
        data.truncate(rng.below(4));
    } else if put_in(rng, Reason::TooLong) {
        data.resize(65_536 + rng.below(8), rng.byte());
    } else if rng.below(500) == 0 {
        data.resize(65_535, rng.byte());
    }
    (data, count as u32)
}

/// An LSA as its bytes, with up to three words of body.
fn record(rng: &mut Rng, lsa: Identity) -> Vec<u8> {
    let row = instance(rng, lsa);
    let words = rng.pick(&[0, 0, 1, 3]);
    let mut bytes = rng.bytes(20 + 4 * words);
    bytes[..2].copy_from_slice(&row.age.to_be_bytes());
    // In version 2 the first of the type's bytes are options.
    let [high, low] = row.ls_type.to_be_bytes();
    bytes[3] = low;
    if row.version != 2 {
        bytes[2] = high;
    }
    bytes[4..8].copy_from_slice(&row.link_state_id.to_be_bytes());
    bytes[8..12].copy_from_slice(&row.advertising_router.to_be_bytes());
    bytes[12..16].copy_from_slice(&row.sequence.to_be_bytes());
    bytes[16..18].copy_from_slice(&row.checksum.to_be_bytes());
    let length = bytes.len() as u16;
    bytes[18..20].copy_from_slice(&length.to_be_bytes());
    bytes
}

fn set_age(rng: &mut Rng, record: &mut [u8]) {
    record[..2].copy_from_slice(&rng.pick(&TOO_OLD).to_be_bytes());
}

/// A declared length that is not the record's own.
fn declare(rng: &mut Rng, record: &mut [u8]) {
    let length = record.len() as u16;
    let declared = rng.pick(&[0, 19, 20, length - 1, length + 1, length + 20, 0xFFFF]);
    record[18..20].copy_from_slice(&declared.to_be_bytes());
}
