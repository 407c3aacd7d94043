//! The LSAs of OSPFv2 and OSPFv3 packets as a strip of fields.
//!
//! A [`Buffer`] is lent to one of three walks: over a list of LSA headers (a
//! Database Description or Link State Acknowledgment), over a Link State Update,
//! or over a single LSA. The walk gives back a [`Strip`], whose entries say
//! for each field its kind, its id, its place in the packet and its value. A
//! metric of all ones has no value: it [is unreachable](Entry::is_unreachable).
//! An entry that opens a container says [how many](Entry::count) are directly
//! inside.
//! [`lsa_headers`], [`lsu_lsas`] and [`lsa`] write into bytes of the caller's.
//! In the same way [`lls`] and [`auth_trailer`] read the blocks that may follow
//! a packet: an LLS data block, and the authentication trailer of OSPFv3.
//! Beside these, [`newness`] and [`same_prefix`] compare two LSAs and two
//! prefixes, and [`checksum_is_good`] and [`make_checksum`] check the checksum
//! of an LSA and make it. A [`Book`] holds a row for each LSA and takes whole
//! updates; [`take_update`] takes one against rows of the caller's.
//!
//! ```
//! use ospf_strip::{Buffer, Refusal, Value, Version};
//!
//! // One version 2 router LSA header, then a byte that belongs to no header.
//! let body = [
//!     0, 1, 2, 1, 10, 0, 0, 1, 10, 0, 0, 1, 0x80, 0, 0, 1, 0x12, 0x34, 0, 24, 0xFF,
//! ];
//! let mut buffer = Buffer::new();
//! let strip = buffer.lsa_headers(Version::V2, &body, 0)?;
//! assert_eq!((strip.records(), strip.tail()), (1, 1));
//!
//! let age = strip.entries().nth(2).unwrap();
//! assert_eq!(age.name(), Some("ls_age"));
//! assert_eq!(age.range(), Some(0..2));
//! assert_eq!(age.value(), Some(Value::U16(1)));
//!
//! // The bytes after the last header are a range of the packet.
//! let rest = strip.entries().last().unwrap();
//! assert_eq!(rest.name(), Some("unparsed"));
//! assert_eq!(rest.part(&body, 0)?, [0xFF]);
//!
//! // A call that is turned down says why, by the requirements' number.
//! let refused = buffer.lsa(Version::V2, &body[..19], 0).unwrap_err();
//! assert_eq!((refused, refused.number()), (Refusal::TooShort, 4));
//! # Ok::<(), Box<dyn std::error::Error>>(())
//! ```
//!
//! A call keeps no state, and any number of threads may make calls at once. It
//! takes some hundred bytes of stack, whatever it is given, and an update that
//! is taken against rows some 16 KiB (docs/BENCHMARKS.md).

mod blocks;
mod book;
mod checksum;
mod comparisons;
mod entry;
pub mod exports;
mod names;
mod refusal;
mod strip;
mod version;
mod walks;

pub use blocks::{Block, auth_trailer, lls};
pub use book::{Book, Counts, Row, Rows, take_update};
pub use checksum::{checksum_is_good, make_checksum};
pub use comparisons::{Newness, newness, same_prefix};
pub use entry::{Entries, Entry, Kind, Value};
pub use names::{label, name};
pub use refusal::{DamagedStrip, OutsidePacket, Refusal};
pub use strip::Strip;
pub use version::Version;
pub use walks::{Buffer, lsa, lsa_headers, lsu_lsas};
