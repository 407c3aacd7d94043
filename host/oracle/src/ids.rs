//! The field ids of the requirements, found by a descriptor's identity.
//!
//! A row of a table is known by its address, since statics do not overlap.
//! The reference keeps some single descriptors to itself; those are known by
//! name, type and children.

use packet_dissector_core::field::{FieldDescriptor, FieldType};

use crate::{trailer, v2_lsa, v3_lsa};

/// Ids that are not an index of a table.
const LINK: u8 = 96;
const TOS_OR_PREFIX: u8 = 97;
const ATTACHED_ROUTER: u8 = 98;
const HEADER: u8 = 112;
const LSA: u8 = 113;
const OUTER: u8 = 114;
const LLS: u8 = 136;
const AUTH_TRAILER: u8 = 152;

/// First ids of the tables.
const LSA_FIELDS: u8 = 0;
const LINK_FIELDS: u8 = 64;
const TOS_OR_PREFIX_FIELDS: u8 = 80;
const LLS_FIELDS: u8 = 128;
const AUTH_TRAILER_FIELDS: u8 = 144;

/// The outer array of a header list or an update. The reference takes this
/// descriptor from its caller, so it is ours here.
pub(crate) static FD_OUTER: FieldDescriptor =
    FieldDescriptor::new("lsas", "LSAs", FieldType::Array);

/// The objects of the blocks. The reference takes these from its caller too,
/// which has them in its own table.
pub(crate) static FD_LLS: FieldDescriptor = trailer::LLS_DESCRIPTOR;
pub(crate) static FD_AUTH_TRAILER: FieldDescriptor = trailer::AUTH_TRAILER_DESCRIPTOR;

/// A table of fields, and the id of its first row.
type Table = (&'static [FieldDescriptor], u8);

/// A container that the reference gets from its caller, and its id.
type Object = (&'static FieldDescriptor, u8);

/// The tables and objects of a call.
pub(crate) struct Ids {
    /// The table of an LSA or a block, then those of what stands inside it.
    tables: Vec<Table>,
    objects: Vec<Object>,
}

impl Ids {
    /// The ids of a walk of `version`, which is 2 or 3.
    pub fn of(version: u8) -> Ids {
        let (lsa, header_object, lsa_object, list) = match version {
            2 => (
                v2_lsa::LSA_CHILD_FIELDS,
                &v2_lsa::FD_LSA_HEADER,
                &v2_lsa::FD_LSA,
                "tos_metrics",
            ),
            _ => (
                v3_lsa::LSA_CHILD_FIELDS,
                &v3_lsa::FD_LSA_HEADER,
                &v3_lsa::FD_LSA,
                "prefixes",
            ),
        };
        Ids {
            tables: vec![
                (lsa, LSA_FIELDS),
                (children(lsa, "links"), LINK_FIELDS),
                (children(lsa, list), TOS_OR_PREFIX_FIELDS),
            ],
            objects: vec![
                (&FD_OUTER, OUTER),
                (header_object, HEADER),
                (lsa_object, LSA),
            ],
        }
    }

    /// The ids of an LLS block, which are the same in both versions.
    pub fn of_lls() -> Ids {
        Ids::of_block((&FD_LLS, LLS), LLS_FIELDS)
    }

    /// The ids of an OSPFv3 authentication trailer.
    pub fn of_auth_trailer() -> Ids {
        Ids::of_block((&FD_AUTH_TRAILER, AUTH_TRAILER), AUTH_TRAILER_FIELDS)
    }

    fn of_block(object: Object, first: u8) -> Ids {
        Ids {
            tables: vec![(object.0.children, first)],
            objects: vec![object],
        }
    }

    /// The id of `d`, or none for a descriptor from inside a TLV.
    pub fn id(&self, d: &'static FieldDescriptor) -> Option<u8> {
        self.in_table(d).or_else(|| self.alone(d))
    }

    /// Whether `d` is the array of top-level TLVs.
    pub fn is_tlvs(&self, d: &'static FieldDescriptor) -> bool {
        (d.name, d.field_type) == ("tlvs", FieldType::Array)
    }

    /// Whether `d` is the range of bytes left over.
    pub fn is_unparsed(&self, d: &'static FieldDescriptor) -> bool {
        (d.name, d.field_type) == ("unparsed", FieldType::Bytes)
    }

    fn in_table(&self, d: &'static FieldDescriptor) -> Option<u8> {
        self.tables.iter().find_map(|&(table, first)| {
            let index = table.iter().position(|row| std::ptr::eq(row, d))?;
            Some(first + index as u8)
        })
    }

    fn alone(&self, d: &'static FieldDescriptor) -> Option<u8> {
        let mut objects = self.objects.iter();
        if let Some(&(_, id)) = objects.find(|(object, _)| std::ptr::eq(*object, d)) {
            return Some(id);
        }
        match (d.name, d.field_type) {
            ("link", FieldType::Object) if self.holds(d, LINK_FIELDS) => Some(LINK),
            ("tos_metric" | "prefix_entry", FieldType::Object)
                if self.holds(d, TOS_OR_PREFIX_FIELDS) =>
            {
                Some(TOS_OR_PREFIX)
            }
            ("attached_router", FieldType::Ipv4Addr) => Some(ATTACHED_ROUTER),
            // What is left over in an LLS block belongs to its TLVs.
            ("unparsed", FieldType::Bytes) if self.tables[0].1 == LLS_FIELDS => None,
            ("tlvs", FieldType::Array) | ("unparsed", FieldType::Bytes) => {
                let (table, first) = self.tables[0];
                let row = table.iter().position(|row| row.name == d.name)?;
                Some(first + row as u8)
            }
            _ => None,
        }
    }

    /// Whether the children of `d` are the table with this first id, and not
    /// only equal to it.
    fn holds(&self, d: &'static FieldDescriptor, first: u8) -> bool {
        let same = |&(table, id): &Table| id == first && std::ptr::eq(table, d.children);
        self.tables.iter().any(same)
    }
}

/// The children of the row called `name`.
fn children(table: &'static [FieldDescriptor], name: &str) -> &'static [FieldDescriptor] {
    let row = table.iter().find(|row| row.name == name);
    row.expect("a row of the reference").children
}

/// How the reference names a field: for programs, and for a person.
#[derive(Clone, Copy, Debug, PartialEq, Eq)]
pub struct FieldName {
    pub name: &'static str,
    pub display_name: &'static str,
}
