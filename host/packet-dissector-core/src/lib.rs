//! A stand-in for the parts of `packet-dissector-core` that the published
//! OSPF files use and that were not published with them.
//!
//! `util` is the published file, compiled from where it lies. The rest is
//! ours: types with the names and shapes that the OSPF files ask for, and a
//! [`packet::DissectBuffer`] that does nothing but record the calls made on it.
//! docs/DIFFERENCES.md says what is assumed of the original.

pub mod error;
pub mod field;
pub mod packet;

// A formatter must not touch the reference.
#[rustfmt::skip]
#[path = "../../../docs/src/crates/packet-dissector-core/src/util.rs"]
pub mod util;
