//! Field types: what a descriptor names, what a field holds.

use std::io::{Result, Write};
use std::ops::Range;

/// The type a descriptor announces.
#[derive(Clone, Copy, Debug, PartialEq, Eq)]
pub enum FieldType {
    U8,
    U16,
    U32,
    U64,
    Ipv4Addr,
    Ipv6Addr,
    Bytes,
    Array,
    Object,
    Any,
}

/// The value of one field. The two container forms hold the range of their
/// children in the original; the recording leaves it as it was given.
#[derive(Clone, Debug, PartialEq, Eq)]
pub enum FieldValue<'pkt> {
    U8(u8),
    U16(u16),
    U32(u32),
    U64(u64),
    Ipv4Addr([u8; 4]),
    Ipv6Addr([u8; 16]),
    Bytes(&'pkt [u8]),
    Array(Range<u32>),
    Object(Range<u32>),
}

/// Names a value for display.
pub type DisplayFn = fn(&FieldValue<'_>, &[Field<'_>]) -> Option<&'static str>;

/// Writes a value in a form of its own.
pub type FormatFn = fn(&FieldValue<'_>, &FormatContext<'_>, &mut dyn Write) -> Result<()>;

/// What a format function may look at besides the value.
pub struct FormatContext<'a> {
    pub packet: &'a [u8],
}

/// One row of a field table. Its address is its identity.
#[derive(Clone, Copy)]
pub struct FieldDescriptor {
    pub name: &'static str,
    pub display_name: &'static str,
    pub field_type: FieldType,
    pub optional: bool,
    pub children: &'static [FieldDescriptor],
    pub display_fn: Option<DisplayFn>,
    pub format_fn: Option<FormatFn>,
}

impl FieldDescriptor {
    /// A required field without children.
    pub const fn new(
        name: &'static str,
        display_name: &'static str,
        field_type: FieldType,
    ) -> FieldDescriptor {
        FieldDescriptor {
            name,
            display_name,
            field_type,
            optional: false,
            children: &[],
            display_fn: None,
            format_fn: None,
        }
    }

    /// The same field, which may be absent.
    pub const fn optional(mut self) -> FieldDescriptor {
        self.optional = true;
        self
    }

    /// The same field with a table of what stands inside it.
    pub const fn with_children(mut self, children: &'static [FieldDescriptor]) -> FieldDescriptor {
        self.children = children;
        self
    }

    /// The same field with a function that names its values.
    pub const fn with_display_fn(mut self, display_fn: DisplayFn) -> FieldDescriptor {
        self.display_fn = Some(display_fn);
        self
    }

    /// The same field with a function that writes its values.
    pub const fn with_format_fn(mut self, format_fn: FormatFn) -> FieldDescriptor {
        self.format_fn = Some(format_fn);
        self
    }
}

/// One recorded field: its descriptor, its value and its place in the packet.
#[derive(Clone)]
pub struct Field<'pkt> {
    pub descriptor: &'static FieldDescriptor,
    pub value: FieldValue<'pkt>,
    pub range: Range<usize>,
}

impl Field<'_> {
    /// The descriptor's name.
    pub fn name(&self) -> &'static str {
        self.descriptor.name
    }
}

/// Writes bytes as text, with a replacement character for what is not UTF-8.
pub fn format_utf8_lossy(
    value: &FieldValue<'_>,
    _ctx: &FormatContext<'_>,
    w: &mut dyn Write,
) -> Result<()> {
    match value {
        FieldValue::Bytes(bytes) => w.write_all(String::from_utf8_lossy(bytes).as_bytes()),
        _ => Ok(()),
    }
}
