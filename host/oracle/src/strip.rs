//! From the record of the reference's calls to the strip of the requirements.

use std::ops::Range;

use packet_dissector_core::field::{Field, FieldValue};
use packet_dissector_core::packet::{DissectBuffer, Event};

use crate::ids::Ids;
use crate::unreachable::is_unreachable;

const OPEN: u8 = 1;
const CLOSE: u8 = 2;
const U8: u8 = 3;
const U16: u8 = 4;
pub(crate) const U32: u8 = 5;
const IPV4: u8 = 6;
const IPV6: u8 = 7;
const BYTES: u8 = 8;
pub(crate) const UNREACHABLE: u8 = 9;
const U64: u8 = 10;

/// The strip of a record, and the bytes left over outside of TLVs at its
/// outermost level.
pub(crate) struct Strip {
    pub bytes: Vec<u8>,
    pub tail: usize,
}

/// Converts the whole record of one call. `data` and `offset` are the call's.
pub(crate) fn of_record(buf: &DissectBuffer<'_>, ids: &Ids, data: &[u8], offset: usize) -> Strip {
    let mut writer = Writer {
        ids,
        data,
        offset,
        open: Vec::new(),
        bytes: Vec::new(),
        tail: 0,
    };
    let events = buf.events();
    let mut at = 0;
    while at < events.len() {
        at = match events[at] {
            Event::Open(i) if ids.is_tlvs(buf.fields()[i].descriptor) => writer.tlvs(buf, at, i),
            event => {
                writer.event(event, buf.fields());
                at + 1
            }
        };
    }
    assert!(writer.open.is_empty(), "a container was left open");
    Strip {
        bytes: writer.bytes,
        tail: writer.tail,
    }
}

/// A container that is not closed yet.
struct Container {
    field: usize,
    /// Where its count stands in the strip.
    count: usize,
    /// The entries directly inside it so far.
    entries: u32,
}

struct Writer<'a> {
    ids: &'a Ids,
    data: &'a [u8],
    offset: usize,
    open: Vec<Container>,
    bytes: Vec<u8>,
    tail: usize,
}

impl Writer<'_> {
    fn event(&mut self, event: Event, fields: &[Field<'_>]) {
        match event {
            Event::Open(i) => {
                self.head(OPEN, &fields[i]);
                self.open.push(Container {
                    field: i,
                    count: self.bytes.len(),
                    entries: 0,
                });
                // The count takes its place when it is known.
                self.bytes.extend_from_slice(&[0; 4]);
            }
            Event::Close(i) => {
                let open = self.open.pop().expect("a close has an open");
                assert_eq!(open.field, i, "containers close in order");
                let count = open.entries.to_be_bytes();
                self.bytes[open.count..open.count + 4].copy_from_slice(&count);
                self.bytes.push(CLOSE);
            }
            Event::Push(i) => self.field(&fields[i]),
            // The field holds its final range already.
            Event::Change(_) => {}
        }
    }

    /// A field with a value of its own.
    fn field(&mut self, field: &Field<'_>) {
        match &field.value {
            FieldValue::U8(v) => self.entry(U8, field, &[*v]),
            FieldValue::U16(v) => self.entry(U16, field, &v.to_be_bytes()),
            FieldValue::U32(_) if is_unreachable(field) => self.entry(UNREACHABLE, field, &[]),
            FieldValue::U32(v) => self.entry(U32, field, &v.to_be_bytes()),
            FieldValue::U64(v) => self.entry(U64, field, &v.to_be_bytes()),
            FieldValue::Ipv4Addr(v) => self.entry(IPV4, field, v),
            FieldValue::Ipv6Addr(v) => self.entry(IPV6, field, v),
            FieldValue::Bytes(v) => {
                self.check_bytes(v, &field.range);
                self.entry(BYTES, field, &[]);
                if self.open.is_empty() && self.ids.is_unparsed(field.descriptor) {
                    self.tail = v.len();
                }
            }
            other => panic!("no entry holds {other:?}"),
        }
    }

    /// The TLV array that opens at event `at`: the array, all inside it and the
    /// unparsed bytes after it become one range. Returns the event after it.
    fn tlvs(&mut self, buf: &DissectBuffer<'_>, at: usize, array: usize) -> usize {
        let events = buf.events();
        let fields = buf.fields();
        let close = Event::Close(array);
        let inside = events[at..].iter().position(|&e| e == close);
        let mut next = at + inside.expect("the TLV array closes") + 1;
        if events.get(next) == Some(&Event::Change(array)) {
            next += 1;
        }
        let mut range = fields[array].range.clone();
        if let Some(&Event::Push(i)) = events.get(next)
            && self.ids.is_unparsed(fields[i].descriptor)
        {
            assert_eq!(
                range.end, fields[i].range.start,
                "unparsed follows the TLVs"
            );
            range.end = fields[i].range.end;
            next += 1;
        }
        self.range_head(BYTES, &fields[array], &range);
        next
    }

    fn entry(&mut self, kind: u8, field: &Field<'_>, value: &[u8]) {
        self.head(kind, field);
        self.bytes.extend_from_slice(value);
    }

    fn head(&mut self, kind: u8, field: &Field<'_>) {
        self.range_head(kind, field, &field.range);
    }

    /// Every entry but a close begins here, and counts for the container that it
    /// stands in.
    fn range_head(&mut self, kind: u8, field: &Field<'_>, range: &Range<usize>) {
        if let Some(container) = self.open.last_mut() {
            container.entries += 1;
        }
        let id = self.ids.id(field.descriptor);
        let id = id.unwrap_or_else(|| panic!("no id for {}", field.name()));
        self.bytes.extend_from_slice(&[kind, id]);
        for place in [range.start, range.end] {
            let place = u32::try_from(place).expect("refusals 2 and 3 keep places in 32 bits");
            self.bytes.extend_from_slice(&place.to_be_bytes());
        }
    }

    /// A range stands for the bytes, so both must say the same.
    fn check_bytes(&self, bytes: &[u8], range: &Range<usize>) {
        let part = &self.data[range.start - self.offset..range.end - self.offset];
        assert!(std::ptr::eq(part, bytes), "the range is the bytes' place");
    }
}
