//! The reference's names of fields, by version and id.
//!
//! Copied from the tables of `v2_lsa.rs`, `v3_lsa.rs` and `trailer.rs`; a test
//! compares them with what the reference pushes.

use crate::Version::{self, V2, V3};

/// A field's name for programs, and its label for a person.
type Row = (&'static str, &'static str);

/// The name of a field, as programs write it.
#[must_use]
pub fn name(version: Version, id: u8) -> Option<&'static str> {
    row(version, id).map(|row| row.0)
}

/// The name of a field, as a person reads it.
#[must_use]
pub fn label(version: Version, id: u8) -> Option<&'static str> {
    row(version, id).map(|row| row.1)
}

/// The row of the requirements' id.
fn row(version: Version, id: u8) -> Option<Row> {
    let at = |table: &'static [Row], first: u8| table.get((id - first) as usize).copied();
    match (version, id) {
        (V2, 0..64) => at(&V2_LSA, 0),
        (V2, 64..80) => at(&V2_LINK, 64),
        (V2, 80..96) => at(&V2_TOS, 80),
        (V2, 96) => Some(("link", "Link")),
        (V2, 97) => Some(("tos_metric", "TOS Metric")),
        (V3, 0..64) => at(&V3_LSA, 0),
        (V3, 64..80) => at(&V3_LINK, 64),
        (V3, 80..96) => at(&V3_PREFIX, 80),
        (V3, 96) => Some(("link", "Interface")),
        (V3, 97) => Some(("prefix_entry", "Prefix")),
        (V2 | V3, 98) => Some(("attached_router", "Attached Router")),
        (V2 | V3, 112) => Some(("lsa_header", "LSA Header")),
        (V2 | V3, 113) => Some(("lsa", "LSA")),
        // The reference takes the outer array from its callers, which call it
        // by this name in an update and `lsa_headers` in a header list.
        (V2 | V3, 114) => Some(("lsas", "LSAs")),
        (V2 | V3, 128..136) => at(&LLS, 128),
        (V2 | V3, 136) => Some(("lls", "LLS Data Block")),
        (V2 | V3, 144..152) => at(&AUTH_TRAILER, 144),
        (V2 | V3, 152) => Some(("auth_trailer", "Authentication Trailer")),
        _ => None,
    }
}

/// LSA fields of version 2.
static V2_LSA: [Row; 26] = [
    ("ls_age", "LS Age"),
    ("options", "Options"),
    ("ls_type", "LS Type"),
    ("link_state_id", "Link State ID"),
    ("advertising_router", "Advertising Router"),
    ("ls_sequence_number", "LS Sequence Number"),
    ("ls_checksum", "LS Checksum"),
    ("length", "Length"),
    ("opaque_type", "Opaque Type"),
    ("opaque_id", "Opaque ID"),
    ("flags", "Flags"),
    ("flag_nt", "Nt-bit (NSSA Translator)"),
    ("flag_v", "V-bit (Virtual Link Endpoint)"),
    ("flag_e", "E-bit"),
    ("flag_b", "B-bit (Area Border Router)"),
    ("num_links", "Number of Links"),
    ("links", "Links"),
    ("network_mask", "Network Mask"),
    ("attached_routers", "Attached Routers"),
    ("metric", "Metric"),
    ("tos_metrics", "TOS Metrics"),
    ("forwarding_address", "Forwarding Address"),
    ("external_route_tag", "External Route Tag"),
    ("body", "LSA Body"),
    ("tlvs", "TLVs"),
    ("unparsed", "Unparsed Data"),
];

/// Router link fields of version 2.
static V2_LINK: [Row; 6] = [
    ("link_id", "Link ID"),
    ("link_data", "Link Data"),
    ("link_type", "Link Type"),
    ("num_tos", "Number of TOS"),
    ("metric", "Metric"),
    ("tos_metrics", "TOS Metrics"),
];

/// TOS entry fields of version 2.
static V2_TOS: [Row; 5] = [
    ("flag_e", "E-bit"),
    ("tos", "TOS"),
    ("metric", "Metric"),
    ("forwarding_address", "Forwarding Address"),
    ("external_route_tag", "External Route Tag"),
];

/// LSA fields of version 3.
static V3_LSA: [Row; 34] = [
    ("ls_age", "LS Age"),
    ("ls_type", "LS Type"),
    ("link_state_id", "Link State ID"),
    ("advertising_router", "Advertising Router"),
    ("ls_sequence_number", "LS Sequence Number"),
    ("ls_checksum", "LS Checksum"),
    ("length", "Length"),
    ("flags", "Flags"),
    ("flag_nt", "Nt-bit (NSSA Translator)"),
    ("flag_v", "V-bit (Virtual Link Endpoint)"),
    ("flag_e", "E-bit"),
    ("flag_b", "B-bit (Area Border Router)"),
    ("flag_f", "F-bit (Forwarding Address)"),
    ("flag_t", "T-bit (External Route Tag)"),
    ("options", "Options"),
    ("links", "Interfaces"),
    ("attached_routers", "Attached Routers"),
    ("metric", "Metric"),
    ("prefix_length", "Prefix Length"),
    ("prefix_options", "Prefix Options"),
    ("prefix", "Address Prefix"),
    ("destination_router_id", "Destination Router ID"),
    ("referenced_ls_type", "Referenced LS Type"),
    ("forwarding_address", "Forwarding Address"),
    ("external_route_tag", "External Route Tag"),
    ("referenced_link_state_id", "Referenced Link State ID"),
    ("router_priority", "Router Priority"),
    ("link_local_address", "Link-local Interface Address"),
    ("num_prefixes", "Number of Prefixes"),
    ("prefixes", "Prefixes"),
    (
        "referenced_advertising_router",
        "Referenced Advertising Router",
    ),
    ("body", "LSA Body"),
    ("tlvs", "TLVs"),
    ("unparsed", "Unparsed Data"),
];

/// Router link fields of version 3.
static V3_LINK: [Row; 5] = [
    ("link_type", "Type"),
    ("metric", "Metric"),
    ("interface_id", "Interface ID"),
    ("neighbor_interface_id", "Neighbor Interface ID"),
    ("neighbor_router_id", "Neighbor Router ID"),
];

/// Prefix entry fields of version 3.
static V3_PREFIX: [Row; 4] = [
    ("prefix_length", "Prefix Length"),
    ("prefix_options", "Prefix Options"),
    ("metric", "Metric"),
    ("prefix", "Address Prefix"),
];

/// LLS data block fields. The reference's fourth, `unparsed`, is a part of
/// `tlvs` in a strip.
static LLS: [Row; 3] = [
    ("checksum", "Checksum"),
    ("lls_data_length", "LLS Data Length"),
    ("tlvs", "TLVs"),
];

/// OSPFv3 authentication trailer fields.
static AUTH_TRAILER: [Row; 5] = [
    ("auth_type", "Authentication Type"),
    ("auth_data_len", "Auth Data Len"),
    ("sa_id", "Security Association ID"),
    ("crypto_sequence_number", "Cryptographic Sequence Number"),
    ("auth_data", "Authentication Data"),
];
