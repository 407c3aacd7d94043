//! An update taken against rows by hand-written Rust. [`careful`] searches the
//! rows for each LSA, as the port does; [`by_map`] first makes a map of them,
//! which takes memory for each call.

use std::collections::HashMap;

use ospf_strip::Row;

use super::{packed, record, refusal};

/// As `ospf_book_update` answers.
pub type Update = fn(u8, &[u8], u32, u64, &mut [Row]) -> u64;

const MAX_AGE: u16 = 3_600;
const MAX_AGE_DIFF: u16 = 900;

/// Bits of a set of identities, a word each 64.
const HASH_BITS: u32 = 17;
const WORDS: usize = 1 << (HASH_BITS - 6);

/// The refusals in their order, and then each LSA by a search through the rows.
// Not inlined, since the library's is not: a call of either is a call.
#[inline(never)]
pub fn careful(version: u8, data: &[u8], count: u32, offset: u64, rows: &mut [Row]) -> u64 {
    let number = refusal(version, data, offset, 4);
    if number != 0 {
        return packed(number, 0);
    }
    let lsas = Lsas::new(version, data, count);
    let Some((all, unused)) = counted(lsas.clone(), rows) else {
        return packed(11, 0);
    };
    if is_shared(rows) {
        return packed(14, 0);
    }
    if all > unused && is_outnumbered(&lsas, rows, unused) {
        return packed(15, 0);
    }
    let (mut replaced, mut added) = (0, 0);
    for lsa in lsas {
        if let Some(row) = rows.iter_mut().find(|row| is_of(row, &lsa)) {
            if is_newer(&lsa, row) {
                *row = lsa;
                replaced += 1;
            }
        } else if let Some(row) = rows.iter_mut().find(|row| row.used == 0) {
            *row = lsa;
            added += 1;
        }
    }
    taken(replaced, added)
}

/// The same by a map of the used rows.
#[inline(never)]
pub fn by_map(version: u8, data: &[u8], count: u32, offset: u64, rows: &mut [Row]) -> u64 {
    let number = refusal(version, data, offset, 4);
    if number != 0 {
        return packed(number, 0);
    }
    let lsas = Lsas::new(version, data, count);
    if counted(lsas.clone(), rows).is_none() {
        return packed(11, 0);
    }
    let mut places = HashMap::with_capacity(rows.len());
    for (place, row) in rows.iter().enumerate().filter(|(_, row)| row.used != 0) {
        if places.insert(identity(row), place).is_some() {
            return packed(14, 0);
        }
    }
    let mut free = (0..rows.len()).filter(|&place| rows[place].used == 0);
    let mut writes: Vec<usize> = Vec::new();
    for lsa in lsas.clone() {
        if let Some(place) = places.get(&identity(&lsa)) {
            writes.push(*place);
            continue;
        }
        let Some(place) = free.next() else {
            return packed(15, 0);
        };
        places.insert(identity(&lsa), place);
        writes.push(place);
    }
    let (mut replaced, mut added) = (0, 0);
    for (lsa, place) in lsas.zip(writes) {
        let row = &mut rows[place];
        if row.used == 0 {
            *row = lsa;
            added += 1;
        } else if is_newer(&lsa, row) {
            *row = lsa;
            replaced += 1;
        }
    }
    taken(replaced, added)
}

fn taken(replaced: usize, added: usize) -> u64 {
    packed(0, replaced) | (added as u64) << 40
}

/// The LSAs of an update, each as its row.
#[derive(Clone)]
struct Lsas<'a> {
    version: u8,
    rest: &'a [u8],
    left: u32,
}

impl<'a> Lsas<'a> {
    fn new(version: u8, data: &'a [u8], count: u32) -> Lsas<'a> {
        Lsas {
            version,
            rest: &data[4..],
            left: count,
        }
    }
}

impl Iterator for Lsas<'_> {
    type Item = Row;

    #[inline]
    fn next(&mut self) -> Option<Row> {
        self.left = self.left.checked_sub(1)?;
        let ((header, _), rest) = record(self.rest)?;
        self.rest = rest;
        let be16 = |at| u16::from_be_bytes([header[at], header[at + 1]]);
        let be32 = |at: usize| u32::from(be16(at)) << 16 | u32::from(be16(at + 2));
        Some(Row {
            version: self.version,
            used: 1,
            ls_type: match self.version {
                2 => header[3].into(),
                _ => be16(2),
            },
            link_state_id: be32(4),
            advertising_router: be32(8),
            sequence: be32(12),
            checksum: be16(16),
            age: be16(0),
        })
    }
}

/// How many LSAs and how many unused rows there are; none if an age is above
/// MaxAge.
fn counted(lsas: Lsas<'_>, rows: &[Row]) -> Option<(usize, usize)> {
    let mut all = 0;
    for lsa in lsas {
        if lsa.age > MAX_AGE {
            return None;
        }
        all += 1;
    }
    let mut unused = 0;
    for row in rows {
        if row.used == 0 {
            unused += 1;
        } else if row.age > MAX_AGE {
            return None;
        }
    }
    Some((all, unused))
}

/// Whether two used rows share an identity. Those that do share a bit; only a
/// row whose bit is set already is compared with the rows before it.
fn is_shared(rows: &[Row]) -> bool {
    let mut bits = [0_u64; WORDS];
    for (place, row) in rows.iter().enumerate().filter(|(_, row)| row.used != 0) {
        let hash = hash(row);
        let word = &mut bits[hash / 64];
        let bit = 1 << (hash % 64);
        if *word & bit != 0 && rows[..place].iter().any(|earlier| is_of(earlier, row)) {
            return true;
        }
        *word |= bit;
    }
    false
}

#[inline]
fn hash(row: &Row) -> usize {
    let id = u64::from(row.link_state_id).wrapping_mul(0x9E37_79B9_7F4A_7C15);
    let router = u64::from(row.advertising_router).wrapping_mul(0x1656_67B1_9E37_79F9);
    let of_type = u64::from(row.ls_type) << 8 | u64::from(row.version);
    let sum = id
        .wrapping_add(router)
        .wrapping_add(of_type.wrapping_mul(0xC2B2_AE3D_27D4_EB4F));
    (sum >> (u64::BITS - HASH_BITS)) as usize
}

/// Whether the new identities outnumber the unused rows.
fn is_outnumbered(lsas: &Lsas<'_>, rows: &[Row], unused: usize) -> bool {
    let mut new = 0;
    for (place, lsa) in lsas.clone().enumerate() {
        let is_known = rows.iter().any(|row| is_of(row, &lsa));
        if is_known || lsas.clone().take(place).any(|row| is_of(&row, &lsa)) {
            continue;
        }
        new += 1;
        if new > unused {
            return true;
        }
    }
    false
}

/// Whether a row is used and has the identity of this one. What differs most
/// often is compared first.
#[inline]
fn is_of(row: &Row, of: &Row) -> bool {
    row.link_state_id == of.link_state_id
        && row.advertising_router == of.advertising_router
        && row.ls_type == of.ls_type
        && row.version == of.version
        && row.used != 0
}

type Identity = (u8, u16, u32, u32);

fn identity(row: &Row) -> Identity {
    let (version, ls_type) = (row.version, row.ls_type);
    (version, ls_type, row.link_state_id, row.advertising_router)
}

/// RFC 2328 13.1, of ages that are not above MaxAge.
#[inline]
fn is_newer(lsa: &Row, row: &Row) -> bool {
    if lsa.sequence != row.sequence {
        return lsa.sequence as i32 > row.sequence as i32;
    }
    if lsa.checksum != row.checksum {
        return lsa.checksum > row.checksum;
    }
    match (lsa.age == MAX_AGE, row.age == MAX_AGE) {
        (false, false) => lsa.age + MAX_AGE_DIFF < row.age,
        (at_the_end, other) => at_the_end && !other,
    }
}
