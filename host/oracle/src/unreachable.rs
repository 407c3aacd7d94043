//! Where the strip says unreachable and the reference a number.
//!
//! A metric of 24 one-bits is LSInfinity, and means unreachable (RFC 2328
//! appendix B). The reference pushes the u32 16,777,215 there; the strip has an
//! entry of kind 9, which has no value. [`is_unreachable`] alone relates the two,
//! where the strip is made from the record: so strips are compared byte by byte,
//! and their lengths with them. [`as_number`] is the way back.

use packet_dissector_core::field::{Field, FieldValue};

use crate::strip::{U32, UNREACHABLE};

const LS_INFINITY: u32 = 0xFF_FFFF;

/// Whether the strip has kind 9 for this field of the reference's record: it is
/// called `metric`, takes three bytes, and has all their bits set.
pub fn is_unreachable(field: &Field<'_>) -> bool {
    field.name() == "metric"
        && field.range.len() == 3
        && field.value == FieldValue::U32(LS_INFINITY)
}

/// An entry of kind 9 as that of the reference's own field, the u32 16,777,215
/// with the same id and range; any other as it is.
pub fn as_number(entry: &[u8]) -> Vec<u8> {
    match entry {
        [UNREACHABLE, head @ ..] => [&[U32], head, &LS_INFINITY.to_be_bytes()].concat(),
        other => other.to_vec(),
    }
}
