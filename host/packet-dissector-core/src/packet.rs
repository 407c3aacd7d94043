//! The buffer that the dissectors write to: here, a recording.

use std::ops::Range;

use crate::field::{Field, FieldDescriptor, FieldValue};

/// One call on the buffer, with the index of the field it concerns.
#[derive(Clone, Copy, Debug, PartialEq, Eq)]
pub enum Event {
    /// `push_field` made this field.
    Push(usize),
    /// `begin_container` made this field.
    Open(usize),
    /// `end_container` was called with this index.
    Close(usize),
    /// `field_mut` lent this field out; the reference uses it only to move
    /// the end of the field's range.
    Change(usize),
}

/// Records each call in order, and the fields they made.
#[derive(Default)]
pub struct DissectBuffer<'pkt> {
    fields: Vec<Field<'pkt>>,
    events: Vec<Event>,
}

impl<'pkt> DissectBuffer<'pkt> {
    /// An empty recording.
    pub fn new() -> DissectBuffer<'pkt> {
        DissectBuffer::default()
    }

    /// Records a field that has a value of its own.
    pub fn push_field(
        &mut self,
        descriptor: &'static FieldDescriptor,
        value: FieldValue<'pkt>,
        range: Range<usize>,
    ) {
        let index = self.add(descriptor, value, range);
        self.events.push(Event::Push(index));
    }

    /// Records the start of a container and returns the index to end it by.
    pub fn begin_container(
        &mut self,
        descriptor: &'static FieldDescriptor,
        value: FieldValue<'pkt>,
        range: Range<usize>,
    ) -> u32 {
        let index = self.add(descriptor, value, range);
        self.events.push(Event::Open(index));
        index as u32
    }

    /// Records the end of the container at `index`.
    pub fn end_container(&mut self, index: u32) {
        self.events.push(Event::Close(index as usize));
    }

    /// Lends out the field at `index`, and records that.
    pub fn field_mut(&mut self, index: usize) -> Option<&mut Field<'pkt>> {
        self.events.push(Event::Change(index));
        self.fields.get_mut(index)
    }

    /// The calls, in order.
    pub fn events(&self) -> &[Event] {
        &self.events
    }

    /// The fields, in the order in which they were made, as they are now.
    pub fn fields(&self) -> &[Field<'pkt>] {
        &self.fields
    }

    fn add(
        &mut self,
        descriptor: &'static FieldDescriptor,
        value: FieldValue<'pkt>,
        range: Range<usize>,
    ) -> usize {
        self.fields.push(Field {
            descriptor,
            value,
            range,
        });
        self.fields.len() - 1
    }
}
