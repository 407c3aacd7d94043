//! Strips read whole, as a program would that wants every field.

use ospf_strip::{Entry, Strip};

/// The sums of all ids, starts, ends, values and counts, modulo 2^64.
#[derive(Clone, Copy, Default)]
struct Sums {
    ids: u64,
    starts: u64,
    ends: u64,
    values: u64,
    counts: u64,
}

impl Sums {
    #[inline]
    fn with(self, entry: Entry<'_>) -> Sums {
        let Some((id, range)) = entry.id().zip(entry.range()) else {
            return self;
        };
        Sums {
            ids: self.ids.wrapping_add(id.into()),
            starts: self.starts.wrapping_add(range.start.into()),
            ends: self.ends.wrapping_add(range.end.into()),
            values: self.values.wrapping_add(value(entry)),
            counts: self.counts.wrapping_add(entry.count().unwrap_or(0).into()),
        }
    }

    fn all(self) -> u64 {
        let places = self.starts.wrapping_add(self.ends);
        let fields = self.values.wrapping_add(self.counts);
        self.ids.wrapping_add(places).wrapping_add(fields)
    }
}

/// The value as a number; of an IPv6 address, its two halves together.
#[inline]
fn value(entry: Entry<'_>) -> u64 {
    let bits = entry.value().map_or(0, u128::from);
    ((bits >> 64) as u64).wrapping_add(bits as u64)
}

/// Every field of a strip, added up, by the strip's own loop.
pub fn read_all(strip: Strip<'_>) -> u64 {
    strip.into_iter().fold(Sums::default(), Sums::with).all()
}

/// The same by an ordinary `for`.
pub fn read_by_for(strip: Strip<'_>) -> u64 {
    let mut sums = Sums::default();
    for entry in strip {
        sums = sums.with(entry);
    }
    sums.all()
}
