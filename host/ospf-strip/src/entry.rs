//! The entries of a strip, read where they lie.

use std::fmt;
use std::iter::FusedIterator;
use std::net::{Ipv4Addr, Ipv6Addr};
use std::ops::Range;

use crate::names;
use crate::{OutsidePacket, Version};

/// What an entry is, with the requirements' kind bytes.
#[derive(Clone, Copy, Debug, PartialEq, Eq, Hash)]
#[repr(u8)]
#[non_exhaustive]
pub enum Kind {
    /// A container begins.
    Open = 1,
    /// The container that was opened last, and is not closed yet, ends.
    Close = 2,
    /// A field with a value of 8 bits.
    U8 = 3,
    /// A field with a value of 16 bits.
    U16 = 4,
    /// A field with a value of 32 bits.
    U32 = 5,
    /// An IPv4 address or a router id.
    Ipv4 = 6,
    /// An IPv6 address.
    Ipv6 = 7,
    /// Bytes of the packet, by their range alone.
    Bytes = 8,
    /// A metric that says unreachable, by its range alone: one of 24 bits, all
    /// ones, which RFC 2328 appendix B calls LSInfinity.
    Unreachable = 9,
    /// A field with a value of 64 bits.
    U64 = 10,
}

/// The value of a field that has one.
#[derive(Clone, Copy, Debug, PartialEq, Eq, Hash)]
#[non_exhaustive]
pub enum Value {
    U8(u8),
    U16(u16),
    U32(u32),
    Ipv4(Ipv4Addr),
    Ipv6(Ipv6Addr),
    U64(u64),
}

impl fmt::Display for Value {
    fn fmt(&self, f: &mut fmt::Formatter<'_>) -> fmt::Result {
        match *self {
            Value::Ipv4(v) => v.fmt(f),
            Value::Ipv6(v) => v.fmt(f),
            number => u128::from(number).fmt(f),
        }
    }
}

/// The value as a number; of an address, that of its bytes.
impl From<Value> for u128 {
    #[inline]
    fn from(value: Value) -> u128 {
        match value {
            Value::U8(v) => v.into(),
            Value::U16(v) => v.into(),
            Value::U32(v) => v.into(),
            Value::Ipv4(v) => v.to_bits().into(),
            Value::Ipv6(v) => v.to_bits(),
            Value::U64(v) => v.into(),
        }
    }
}

/// Where an entry's value begins, or an opening's count: after kind, id, start
/// and end.
const HEAD: usize = 10;

/// How much of a strip `fold` looks at: as much as six entries have whose
/// values are of 32 bits, or six openings, and so more than any of its rows.
const WINDOW: usize = 6 * (HEAD + 4);

/// An entry's bytes, from its kind on. The kind fixes how many there are, so
/// whoever holds one reads it without a test.
#[derive(Clone, Copy, PartialEq, Eq, Hash)]
enum View<'a> {
    Open(&'a [u8; HEAD + 4]),
    Close,
    U8(&'a [u8; HEAD + 1]),
    U16(&'a [u8; HEAD + 2]),
    U32(&'a [u8; HEAD + 4]),
    Ipv4(&'a [u8; HEAD + 4]),
    Ipv6(&'a [u8; HEAD + 16]),
    Bytes(&'a [u8; HEAD]),
    Unreachable(&'a [u8; HEAD]),
    U64(&'a [u8; HEAD + 8]),
}

impl<'a> View<'a> {
    /// The entry of this kind at the front of the bytes, and what follows it;
    /// nothing where it does not fit, or there is no such kind.
    // Each kind takes its own length: so the processor goes on with the next
    // entry before this one's kind is read, where a table of lengths would
    // make it wait. Inlined, it is one arm where the kind is known.
    #[inline(always)]
    fn first(kind: u8, bytes: &'a [u8]) -> Option<(View<'a>, &'a [u8])> {
        match kind {
            1 => split(bytes, View::Open),
            2 => split(bytes, |_: &[u8; 1]| View::Close),
            3 => split(bytes, View::U8),
            4 => split(bytes, View::U16),
            5 => split(bytes, View::U32),
            6 => split(bytes, View::Ipv4),
            7 => split(bytes, View::Ipv6),
            8 => split(bytes, View::Bytes),
            9 => split(bytes, View::Unreachable),
            10 => split(bytes, View::U64),
            _ => None,
        }
    }
}

/// A view of as many bytes as it takes, and the rest. The one test of an entry.
#[inline(always)]
fn split<'a, const N: usize>(
    bytes: &'a [u8],
    view: impl FnOnce(&'a [u8; N]) -> View<'a>,
) -> Option<(View<'a>, &'a [u8])> {
    let (bytes, rest) = bytes.split_first_chunk()?;
    Some((view(bytes), rest))
}

/// One entry of a strip: a view of its bytes, which are read when asked for.
#[derive(Clone, Copy, PartialEq, Eq, Hash)]
pub struct Entry<'a> {
    version: Version,
    view: View<'a>,
}

impl<'a> Entry<'a> {
    /// What the entry is.
    #[inline]
    #[must_use]
    pub fn kind(&self) -> Kind {
        let (kind, _, _) = self.read();
        kind
    }

    /// The field's id; a close has none.
    #[inline]
    #[must_use]
    pub fn id(&self) -> Option<u8> {
        let (_, head, _) = self.read();
        head.map(|head| head[1])
    }

    /// The field's place in the packet; a close has none.
    #[inline]
    #[must_use]
    pub fn range(&self) -> Option<Range<u32>> {
        let (_, head, _) = self.read();
        let [_, _, a, b, c, d, e, f, g, h] = *head?;
        Some(u32::from_be_bytes([a, b, c, d])..u32::from_be_bytes([e, f, g, h]))
    }

    /// The value, of a kind that has one. A metric that says unreachable has
    /// none.
    #[inline]
    #[must_use]
    pub fn value(&self) -> Option<Value> {
        let (_, _, value) = self.read();
        value
    }

    /// How many entries are directly inside the container that this entry
    /// opens: a container among them counts once, whatever is in it, and closes
    /// do not count. `None` of an entry of any other kind. So a list can be
    /// given its size before the entries are read.
    ///
    /// ```
    /// use ospf_strip::{Buffer, Version};
    ///
    /// // A version 2 network LSA with two attached routers.
    /// let lsa = [
    ///     0, 1, 2, 2, 10, 0, 0, 1, 10, 0, 0, 1, 0x80, 0, 0, 1, 0, 0, 0, 32, //
    ///     255, 255, 255, 0, 10, 0, 0, 1, 10, 0, 0, 2,
    /// ];
    /// let mut buffer = Buffer::new();
    /// let mut entries = buffer.lsa(Version::V2, &lsa, 0)?.entries();
    /// let array = entries.find(|entry| entry.name() == Some("attached_routers"));
    /// let count = array.and_then(|array| array.count()).unwrap();
    /// let mut routers = Vec::with_capacity(count as usize);
    /// routers.extend(entries.take(count as usize).filter_map(|router| router.value()));
    /// assert_eq!(routers.len(), 2);
    /// # Ok::<(), ospf_strip::Refusal>(())
    /// ```
    #[inline]
    #[must_use]
    pub fn count(&self) -> Option<u32> {
        match self.view {
            View::Open(b) => Some(u32::from_be_bytes(*last(b))),
            _ => None,
        }
    }

    /// Whether the field is a metric that says unreachable, and so no cost.
    ///
    /// ```
    /// use ospf_strip::{Buffer, Value, Version};
    ///
    /// // A version 2 summary LSA: metric unreachable, and for TOS 8 a cost of 10.
    /// let lsa = [
    ///     0, 1, 2, 3, 10, 1, 0, 0, 10, 0, 0, 1, 0x80, 0, 0, 1, 0, 0, 0, 32, //
    ///     255, 255, 0, 0, 0, 0xFF, 0xFF, 0xFF, 8, 0, 0, 10,
    /// ];
    /// let mut buffer = Buffer::new();
    /// let strip = buffer.lsa(Version::V2, &lsa, 0)?;
    /// let mut metrics = strip.entries().filter(|entry| entry.name() == Some("metric"));
    /// let metric = metrics.next().unwrap();
    /// assert_eq!((metric.is_unreachable(), metric.value()), (true, None));
    /// assert_eq!(metric.range(), Some(25..28));
    /// let metric = metrics.next().unwrap();
    /// assert_eq!((metric.is_unreachable(), metric.value()), (false, Some(Value::U32(10))));
    /// # Ok::<(), ospf_strip::Refusal>(())
    /// ```
    #[inline]
    #[must_use]
    pub fn is_unreachable(&self) -> bool {
        self.kind() == Kind::Unreachable
    }

    /// All that an entry says but an opening's count: its kind; kind, id, start
    /// and end as bytes; and its value. Inlined, so that whoever takes one of them
    /// reads no other.
    #[inline(always)]
    fn read(&self) -> (Kind, Option<&'a [u8; HEAD]>, Option<Value>) {
        match self.view {
            View::Open(b) => (Kind::Open, b.first_chunk(), None),
            View::Close => (Kind::Close, None, None),
            View::U8(b) => (Kind::U8, b.first_chunk(), Some(Value::U8(b[HEAD]))),
            View::U16(b) => {
                let value = u16::from_be_bytes(*last(b));
                (Kind::U16, b.first_chunk(), Some(Value::U16(value)))
            }
            View::U32(b) => {
                let value = u32::from_be_bytes(*last(b));
                (Kind::U32, b.first_chunk(), Some(Value::U32(value)))
            }
            View::Ipv4(b) => {
                let value = Ipv4Addr::from(*last(b));
                (Kind::Ipv4, b.first_chunk(), Some(Value::Ipv4(value)))
            }
            View::Ipv6(b) => {
                let value = Ipv6Addr::from(*last::<16>(b));
                (Kind::Ipv6, b.first_chunk(), Some(Value::Ipv6(value)))
            }
            View::Bytes(head) => (Kind::Bytes, Some(head), None),
            View::Unreachable(head) => (Kind::Unreachable, Some(head), None),
            View::U64(b) => {
                let value = u64::from_be_bytes(*last(b));
                (Kind::U64, b.first_chunk(), Some(Value::U64(value)))
            }
        }
    }
}

/// The last bytes of an entry: its value, or an opening's count.
#[inline]
fn last<const N: usize>(bytes: &[u8]) -> &[u8; N] {
    bytes
        .last_chunk()
        .expect("an entry is longer than its value")
}

impl Entry<'_> {
    /// The reference's name of the field, for programs.
    #[inline]
    #[must_use]
    pub fn name(&self) -> Option<&'static str> {
        names::name(self.version, self.id()?)
    }

    /// The reference's name of the field, for a person.
    #[inline]
    #[must_use]
    pub fn label(&self) -> Option<&'static str> {
        names::label(self.version, self.id()?)
    }

    /// The part of `packet` that the entry stands for. `packet` is the data
    /// that was walked, or a packet that holds it, and its first byte is at
    /// `offset`.
    ///
    /// # Errors
    ///
    /// The range does not lie in the packet, or the entry is a close, which
    /// has none.
    #[inline]
    pub fn part<'p>(&self, packet: &'p [u8], offset: u64) -> Result<&'p [u8], OutsidePacket> {
        let range = self.range().ok_or(OutsidePacket)?;
        let place = |at: u32| usize::try_from(u64::from(at).checked_sub(offset)?).ok();
        let part = place(range.start)
            .zip(place(range.end))
            .and_then(|(start, end)| packet.get(start..end));
        part.ok_or(OutsidePacket)
    }
}

impl fmt::Debug for Entry<'_> {
    fn fmt(&self, f: &mut fmt::Formatter<'_>) -> fmt::Result {
        f.debug_struct("Entry")
            .field("kind", &self.kind())
            .field("id", &self.id())
            .field("name", &self.name())
            .field("range", &self.range())
            .field("value", &self.value())
            .field("count", &self.count())
            .finish()
    }
}

/// Goes through the entries of a strip.
///
/// Whoever reads all of them reads fastest by [`for_each`](Iterator::for_each)
/// or [`fold`](Iterator::fold): where it was measured, in about half the time
/// of a `for` loop (docs/BENCHMARKS.md).
#[derive(Clone, Debug)]
#[must_use = "an iterator does nothing until it is asked for entries"]
pub struct Entries<'a> {
    version: Version,
    rest: &'a [u8],
}

impl<'a> Entries<'a> {
    /// The bytes are whole entries from end to end.
    #[inline]
    pub(crate) fn of(version: Version, bytes: &'a [u8]) -> Entries<'a> {
        Entries {
            version,
            rest: bytes,
        }
    }
}

impl<'a> Iterator for Entries<'a> {
    type Item = Entry<'a>;

    #[inline]
    fn next(&mut self) -> Option<Entry<'a>> {
        let version = self.version;
        let (view, rest) = View::first(*self.rest.first()?, self.rest)?;
        self.rest = rest;
        Some(Entry { version, view })
    }

    // A whole strip at once, for `for_each` and what else goes by `fold`: by
    // rows of entries that often stand together (docs/BENCHMARKS.md). A row
    // lies in a window that has been tested to be there, so its entries need
    // no test of their own. Each arm tests the window and calls `f` itself, so
    // that the compiler ends it with a jump to the next row. Which rows there
    // are does not change what is read.
    #[inline]
    fn fold<B, F>(mut self, init: B, mut f: F) -> B
    where
        F: FnMut(B, Entry<'a>) -> B,
    {
        let version = self.version;
        let mut folded = init;
        let mut kind = self.rest.first().copied().unwrap_or_default();
        loop {
            let strip = self.rest;
            // An entry of this kind, and after it one of those, if one is next.
            macro_rules! row {
                ($bytes:expr, $kind:ident { $($next:ident $then:tt)* }) => {{
                    let Some((view, rest)) = View::first(Kind::$kind as u8, $bytes) else {
                        break;
                    };
                    self.rest = &strip[WINDOW - rest.len()..];
                    folded = f(folded, Entry { version, view });
                    let Some(&next) = rest.first() else {
                        break;
                    };
                    kind = next;
                    $(if kind == Kind::$next as u8 {
                        row!(rest, $next $then);
                    } else)* {}
                }};
            }
            macro_rules! rows {
                ($($row:tt)*) => {{
                    let Some(window) = strip.first_chunk::<WINDOW>() else {
                        break;
                    };
                    row!(window.as_slice(), $($row)*)
                }};
            }
            // Four bits tell the kinds apart. All sixteen values stand here,
            // 8 as the one that is left: so the compiler makes no test before
            // the jump.
            match kind & 15 {
                1 => rows!(Open {
                    U16 { U16 { U32 {} } U8 { U8 {} } }
                    U8 { U32 { Close {} } U16 { U32 { U32 {} } } U8 {} }
                    Ipv4 { Ipv4 {} }
                }),
                2 => rows!(Close { Open {} Close {} }),
                3 => rows!(U8 { U8 {} U16 {} Ipv4 {} }),
                4 => rows!(U16 { U16 { U32 {} } Close {} Open {} }),
                5 => rows!(U32 { Close {} U32 {} U16 { U16 {} } }),
                6 => rows!(Ipv4 {
                    Ipv4 { U32 { U16 { U16 { Close {} } } } }
                    U32 { U16 { U16 { Close {} } } }
                    Close {}
                }),
                7 => rows!(Ipv6 { Close {} }),
                // It stands in no row of another kind, so that a strip without it
                // is not tested for it: where it stood in the row of a TOS metric,
                // other rows took up to a tenth more instructions.
                9 => rows!(Unreachable { Close {} Ipv4 {} U8 {} }),
                10 => rows!(U64 {}),
                // None of them is a kind, and no strip has one.
                0 | 11 | 12 | 13 | 14 | 15 => return folded,
                _ => rows!(Bytes {}),
            }
        }
        // What is left is shorter than a window.
        for entry in self {
            folded = f(folded, entry);
        }
        folded
    }
}

// A step that gives nothing leaves the rest as it is.
impl FusedIterator for Entries<'_> {}

#[cfg(test)]
mod tests {
    use super::*;

    fn entries(bytes: &[u8]) -> Entries<'_> {
        Entries::of(Version::V2, bytes)
    }

    /// The last four bytes of an opening are its count and no value; the same
    /// bytes of another kind are no count.
    #[test]
    fn count_of_an_opening() {
        let opening = [1, 114, 0, 0, 0, 4, 0, 0, 0, 20, 0xFE, 0xDC, 0xBA, 0x98];
        let open = entries(&opening).next().expect("an entry");
        assert_eq!((open.kind(), open.id()), (Kind::Open, Some(114)));
        assert_eq!((open.range(), open.value()), (Some(4..20), None));
        assert_eq!(open.count(), Some(0xFEDC_BA98));
        assert!(format!("{open:?}").contains("count: Some(4275878552)"));
        let field = [&[5], &opening[1..]].concat();
        let number = entries(&field).next().expect("an entry");
        assert_eq!(number.value(), Some(Value::U32(0xFEDC_BA98)));
        assert_eq!(number.count(), None);
    }

    /// What is no kind ends `next` and `fold`, near the end and far from it.
    /// No strip has such a byte, so this takes the entries by themselves.
    #[test]
    fn no_kind_ends() {
        for kind in 0..=u8::MAX {
            let known = matches!(kind, 1..=10);
            for length in [1, 10, WINDOW - 1, WINDOW, 4 * WINDOW] {
                let bytes = vec![kind; length];
                let folded = entries(&bytes).fold(0, |count, _| count + 1);
                assert!(folded <= length, "{kind}");
                assert!(known || entries(&bytes).next().is_none(), "{kind}");
                assert!(known || kind > 15 || folded == 0, "{kind}");
            }
        }
    }
}
