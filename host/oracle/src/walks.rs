//! The three walks and the two readings of a block: the requirements'
//! refusals 1 to 5, then the reference.
//!
//! The refusals are ours. The reference leaves them to its callers, or would
//! panic, or has no limit; docs/DIFFERENCES.md lists them. Whether a block is
//! absent is the reference's answer.

use packet_dissector_core::field::FieldDescriptor;
use packet_dissector_core::packet::DissectBuffer;

use crate::ids::{FD_AUTH_TRAILER, FD_LLS, FD_OUTER, FieldName, Ids};
use crate::strip;
use crate::{common, trailer, v2_lsa, v3_lsa};

const MOST_DATA: usize = 65_535;
const MOST_OFFSET: u64 = 4_294_901_760;
const COUNT_SIZE: usize = 4;

/// What a call asks for: one of the three walks, with the numbers of the small
/// program, or the reading of a block, with the numbers that follow. A block
/// may stand at the data's front; its reading has no version.
#[derive(Clone, Copy, Debug, PartialEq, Eq)]
pub enum Walk {
    /// A list of LSA headers: the rest of a DD body, or an LSAck body.
    Headers = 0,
    /// A Link State Update body.
    Update = 1,
    /// One LSA.
    Lsa = 2,
    /// An LLS data block.
    Lls = 3,
    /// An OSPFv3 Authentication Trailer.
    AuthTrailer = 4,
}

impl Walk {
    /// All, by number.
    pub const ALL: [Walk; 5] = [
        Walk::Headers,
        Walk::Update,
        Walk::Lsa,
        Walk::Lls,
        Walk::AuthTrailer,
    ];

    /// Whether it is the reading of a block.
    pub fn is_block(self) -> bool {
        matches!(self, Walk::Lls | Walk::AuthTrailer)
    }
}

/// One call, without the buffer. Only an update has a count; where a block is
/// read, the version is not looked at.
#[derive(Clone, Copy, Debug, PartialEq, Eq)]
pub struct Call<'a> {
    pub version: u8,
    pub walk: Walk,
    pub data: &'a [u8],
    pub count: u32,
    pub offset: u64,
}

/// What a call comes to before the lent buffer's length is known.
#[derive(Clone, Debug, PartialEq, Eq)]
pub enum Outcome {
    /// Refusal 1, 2, 3 or 4.
    Refused(u8),
    /// No block stands at the data's front.
    Absent,
    /// The whole strip; of a walk also the records accepted and the tail's
    /// bytes, and of a block its length. The others are 0.
    Accepted {
        strip: Vec<u8>,
        records: u32,
        tail: u32,
        block: u32,
    },
}

/// What a call answers. Absent is all zeros.
#[derive(Clone, Copy, Debug, Default, PartialEq, Eq)]
pub struct Answer {
    pub number: u8,
    pub length: u32,
    pub records: u32,
    pub tail: u32,
    pub block: u32,
}

impl Answer {
    /// The form of the export: the length, the number from bit 32, the block's
    /// length from bit 40.
    pub fn packed(self) -> u64 {
        u64::from(self.block) << 40 | u64::from(self.number) << 32 | u64::from(self.length)
    }
}

impl Call<'_> {
    /// Asks the reference, unless the call is turned down.
    pub fn run(&self) -> Outcome {
        match self.refusal() {
            Some(number) => Outcome::Refused(number),
            None => self.accepted(),
        }
    }

    /// Ours: refusals 1 to 4, in the requirements' order. Of these a block
    /// has 2 and 3.
    fn refusal(&self) -> Option<u8> {
        let least = match self.walk {
            Walk::Headers | Walk::Lls | Walk::AuthTrailer => 0,
            Walk::Update => COUNT_SIZE,
            Walk::Lsa => common::LSA_HEADER_SIZE,
        };
        if !self.walk.is_block() && !matches!(self.version, 2 | 3) {
            Some(1)
        } else if self.data.len() > MOST_DATA {
            Some(2)
        } else if self.offset > MOST_OFFSET {
            Some(3)
        } else if self.data.len() < least {
            Some(4)
        } else {
            None
        }
    }

    fn accepted(&self) -> Outcome {
        let (buf, block) = self.pushed();
        if self.walk.is_block() && block.is_none() {
            assert!(buf.events().is_empty(), "nothing of an absent block");
            return Outcome::Absent;
        }
        let reference = Reference::of(self.version);
        let strip = strip::of_record(&buf, &self.ids(), self.data, self.offset as usize);
        Outcome::Accepted {
            records: match self.walk {
                Walk::Headers => count(&buf, reference.header_object),
                Walk::Update => count(&buf, reference.lsa_object),
                Walk::Lsa => 1,
                Walk::Lls | Walk::AuthTrailer => 0,
            },
            strip: strip.bytes,
            tail: strip.tail as u32,
            block: block.unwrap_or(0) as u32,
        }
    }

    fn ids(&self) -> Ids {
        match self.walk {
            Walk::Headers | Walk::Update | Walk::Lsa => Ids::of(self.version),
            Walk::Lls => Ids::of_lls(),
            Walk::AuthTrailer => Ids::of_auth_trailer(),
        }
    }

    /// Calls the reference, as its callers in `v2.rs` and `v3.rs` do.
    pub fn record(&self) -> DissectBuffer<'_> {
        self.pushed().0
    }

    /// The record, and what the reference answers as the length of a block,
    /// if there is one.
    fn pushed(&self) -> (DissectBuffer<'_>, Option<usize>) {
        let mut buf = DissectBuffer::new();
        let (data, offset) = (self.data, self.offset as usize);
        let block = match self.walk {
            Walk::Lls => match trailer::push_lls(&mut buf, data, offset, &FD_LLS) {
                0 => None,
                length => Some(length),
            },
            Walk::AuthTrailer => {
                let length = trailer::auth_trailer_len(data);
                if let Some(length) = length {
                    let object = &FD_AUTH_TRAILER;
                    trailer::push_auth_trailer(&mut buf, data, length, offset, object);
                }
                length
            }
            Walk::Headers | Walk::Update | Walk::Lsa => {
                self.push_lsas(&mut buf);
                None
            }
        };
        (buf, block)
    }

    /// The walks' own calls of the reference.
    fn push_lsas<'pkt>(&'pkt self, buf: &mut DissectBuffer<'pkt>) {
        let reference = Reference::of(self.version);
        let (data, offset) = (self.data, self.offset as usize);
        match self.walk {
            Walk::Headers => common::push_lsa_headers(
                buf,
                &FD_OUTER,
                data,
                offset,
                reference.header_object,
                reference.push_header,
            ),
            Walk::Update => common::push_lsu_lsas(
                buf,
                &FD_OUTER,
                data,
                self.count,
                offset,
                reference.lsa_object,
                reference.push_lsa,
            ),
            _ => (reference.push_lsa)(buf, data, offset),
        }
    }

    /// Each field id that the reference pushes in this call, with the name it
    /// has there. What stands inside TLVs, or is left over after those of an
    /// LLS block, has no id and is left out.
    pub fn names(&self) -> Vec<(u8, FieldName)> {
        if self.refusal().is_some() {
            return Vec::new();
        }
        let ids = self.ids();
        let buf = self.record();
        let named = buf.fields().iter().filter_map(|field| {
            let d = field.descriptor;
            let (name, display_name) = (d.name, d.display_name);
            Some((ids.id(d)?, FieldName { name, display_name }))
        });
        named.collect()
    }
}

/// How many containers of this descriptor the record holds.
fn count(buf: &DissectBuffer<'_>, object: &'static FieldDescriptor) -> u32 {
    let fields = buf.fields().iter();
    fields
        .filter(|f| std::ptr::eq(f.descriptor, object))
        .count() as u32
}

/// The functions and objects that the reference's version modules hand to
/// the shared walks.
struct Reference<'pkt> {
    header_object: &'static FieldDescriptor,
    lsa_object: &'static FieldDescriptor,
    push_header: Push<'pkt>,
    push_lsa: Push<'pkt>,
}

type Push<'pkt> = fn(&mut DissectBuffer<'pkt>, &'pkt [u8], usize);

impl<'pkt> Reference<'pkt> {
    fn of(version: u8) -> Reference<'pkt> {
        match version {
            2 => Reference {
                header_object: &v2_lsa::FD_LSA_HEADER,
                lsa_object: &v2_lsa::FD_LSA,
                push_header: v2_lsa::push_lsa_header_fields,
                push_lsa: v2_lsa::push_lsa,
            },
            _ => Reference {
                header_object: &v3_lsa::FD_LSA_HEADER,
                lsa_object: &v3_lsa::FD_LSA,
                push_header: v3_lsa::push_lsa_header_fields,
                push_lsa: v3_lsa::push_lsa,
            },
        }
    }
}

impl Outcome {
    /// Writes the strip into the lent buffer if it fits. Ours: refusal 5.
    pub fn lend(&self, strip: &mut [u8]) -> Answer {
        let answer = self.answer(strip.len());
        if let Outcome::Accepted { strip: whole, .. } = self
            && answer.number == 0
        {
            strip[..whole.len()].copy_from_slice(whole);
        }
        answer
    }

    /// The answer for a lent buffer of `room` bytes.
    pub fn answer(&self, room: usize) -> Answer {
        match self {
            Outcome::Refused(number) => Answer {
                number: *number,
                ..Answer::default()
            },
            Outcome::Absent => Answer::default(),
            Outcome::Accepted { strip, .. } if strip.len() > room => Answer {
                number: 5,
                length: strip.len() as u32,
                ..Answer::default()
            },
            Outcome::Accepted {
                strip,
                records,
                tail,
                block,
            } => Answer {
                number: 0,
                length: strip.len() as u32,
                records: *records,
                tail: *tail,
                block: *block,
            },
        }
    }
}
