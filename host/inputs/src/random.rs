//! Classes of random contents: whole, cut, damaged, and without a plan.

use oracle::Walk;

use crate::lsa::{structured as structured_lsa, structured_of, update};
use crate::{Class, Input, Rng, Take, V2_TYPES, V3_FUNCTIONS};

/// A structured call of any walk.
fn any(rng: &mut Rng, class: Class) -> Input {
    let version = rng.pick(&[2, 3]);
    let n = rng.below(5) as u32;
    let records: Vec<Vec<u8>> = (0..n).map(|_| structured_lsa(rng, version)).collect();
    let (walk, data, count) = match rng.below(3) {
        0 => {
            let headers: Vec<&[u8]> = records.iter().map(|r| &r[..20]).collect();
            (Walk::Headers, headers.concat(), 0)
        }
        1 => (Walk::Update, update(n, &records), n),
        _ => (Walk::Lsa, structured_lsa(rng, version), 0),
    };
    Input {
        class,
        version,
        walk,
        data,
        count,
        offset: rng.offset(),
    }
}

/// Each type and function in turn, then calls of any walk.
pub fn structured(rng: &mut Rng, rounds: u32, take: &mut Take<'_>) {
    for _ in 0..rounds {
        let types = V2_TYPES.iter().map(|&t| (2, t));
        let functions = V3_FUNCTIONS.iter().map(|&f| (3, f));
        for (version, ls_type) in types.chain(functions) {
            let data = structured_of(rng, version, ls_type);
            take(Input {
                class: Class::Structured,
                version,
                walk: Walk::Lsa,
                data,
                count: 0,
                offset: rng.offset(),
            });
        }
        for _ in 0..20 {
            take(any(rng, Class::Structured));
        }
    }
}

/// Structured calls cut at every byte.
pub fn truncated(rng: &mut Rng, rounds: u32, take: &mut Take<'_>) {
    for _ in 0..rounds {
        let whole = any(rng, Class::Truncated);
        for length in 0..whole.data.len() {
            take(Input {
                data: whole.data[..length].to_vec(),
                ..whole.clone()
            });
        }
    }
}

/// Structured calls with one to three bytes changed, removed or added.
pub fn damaged(rng: &mut Rng, rounds: u32, take: &mut Take<'_>) {
    for _ in 0..rounds {
        let whole = any(rng, Class::Damaged);
        for _ in 0..30 {
            let mut input = whole.clone();
            for _ in 0..=rng.below(3) {
                damage(rng, &mut input.data);
            }
            if input.walk == Walk::Update && rng.below(8) == 0 {
                input.count = rng.bits() as u32;
            }
            take(input);
        }
    }
}

/// One byte changed, removed or added.
pub fn damage(rng: &mut Rng, data: &mut Vec<u8>) {
    if data.is_empty() {
        data.push(rng.byte());
        return;
    }
    let at = rng.below(data.len());
    match rng.below(6) {
        0 => {
            data.remove(at);
        }
        1 => data.insert(at, rng.byte()),
        2 => data[at] = rng.pick(&[0, 1, 2, 127, 128, 129, 254, 255]),
        3 => data[at] ^= 1 << rng.below(8),
        _ => data[at] = rng.byte(),
    }
}

/// Random bytes; small values are frequent, so that some lengths fit.
pub fn random(rng: &mut Rng, rounds: u32, take: &mut Take<'_>) {
    for _ in 0..rounds * 40 {
        let length = rng.below(200);
        let mut data = rng.bytes(length);
        if rng.below(2) == 0 {
            data.iter_mut().for_each(|byte| *byte &= 0x13);
        }
        take(Input {
            class: Class::Random,
            version: rng.pick(&[2, 3]),
            walk: rng.pick(&[Walk::Headers, Walk::Update, Walk::Lsa]),
            data,
            count: rng.below(6) as u32,
            offset: rng.offset(),
        });
    }
}
