//! The oracle: what the Rust reference says about the LSAs or the block of a
//! call.
//!
//! The files of `docs/src` are compiled as they lie there, against the
//! stand-in `packet-dissector-core`, which records their calls. From that
//! record [`strip`](mod@strip) makes the strip of the requirements; a metric that
//! says [`unreachable`](mod@unreachable) is a number in the record. The refusals 1
//! to 5 are not in the reference; they stand in `walks` and are ours.
//!
//! ```
//! use oracle::{Call, Walk};
//!
//! let call = Call { version: 2, walk: Walk::Headers, data: &[], count: 0, offset: 0 };
//! let mut strip = [0xA5; 15];
//! assert_eq!(call.run().lend(&mut strip).length, 15);
//! assert_eq!(strip, [1, 114, 0, 0, 0, 0, 0, 0, 0, 0, 0, 0, 0, 0, 2]);
//! ```

// The reference. Much of it (names, formats) is not called, and a formatter
// must not touch it.
include!(concat!(env!("OUT_DIR"), "/modules.rs"));

#[allow(dead_code)]
#[rustfmt::skip]
#[path = "../../../docs/src/crates/packet-dissector-ospf/src/tlv.rs"]
pub(crate) mod tlv;

#[allow(dead_code)]
#[rustfmt::skip]
#[path = "../../../docs/src/crates/packet-dissector-ospf/src/trailer.rs"]
pub(crate) mod trailer;

#[allow(dead_code)]
#[rustfmt::skip]
#[path = "../../../docs/src/crates/packet-dissector-ospf/src/v2_lsa.rs"]
pub(crate) mod v2_lsa;

#[allow(dead_code)]
#[rustfmt::skip]
#[path = "../../../docs/src/crates/packet-dissector-ospf/src/v3_lsa.rs"]
pub(crate) mod v3_lsa;

// Ours.
mod ids;
mod strip;
pub mod unreachable;
mod walks;

#[cfg(test)]
mod intended;

pub use ids::FieldName;
pub use walks::{Answer, Call, Outcome, Walk};
