//! What the benchmark runs: the proved walks and readings of blocks of
//! `libospf.a`, the same strip written by careful Rust, and the reference's own functions over the
//! recording stand-in; the walks with every field read afterwards, in Rust and
//! in C; and the corpus it runs them on.

pub mod careful;
pub mod corpus;
pub mod read;

use compare::Walks;
use inputs::Input;
use oracle::Walk;
use ospf_strip::{Strip, Version};

/// The proved walks.
pub const PORT: Walks = compare::PROVED;

/// The hand-written ones.
pub const CAREFUL: Walks = Walks {
    headers: careful::lsa_headers,
    update: careful::lsu_lsas,
    lsa: careful::lsa,
    lls: careful::blocks::lls,
    auth_trailer: careful::blocks::auth_trailer,
};

/// What is compared.
#[derive(Clone, Copy, Debug, PartialEq, Eq)]
pub enum Way {
    /// The proved walks.
    Port,
    /// The same strip by hand-written Rust.
    Careful,
    /// The reference's functions over the recording stand-in.
    Reference,
    /// The proved walks, and then every field read in Rust.
    Read,
    /// The same by an ordinary `for`.
    ReadByFor,
    /// The proved walks, and then every field read in C.
    ReadInC,
}

/// All ways. The first three walk, and the others read what was walked.
pub const WAYS: [Way; 6] = [
    Way::Port,
    Way::Careful,
    Way::Reference,
    Way::Read,
    Way::ReadByFor,
    Way::ReadInC,
];

/// The ways to walk, in the order in which they are printed.
pub const WALKS: [Way; 3] = [Way::Port, Way::Careful, Way::Reference];

/// The walk alone, and the ways to read.
pub const READERS: [Way; 4] = [Way::Port, Way::Read, Way::ReadByFor, Way::ReadInC];

impl Way {
    /// Runs one call, and gives a number that depends on its result. `strip`
    /// is lent as it is; the reference does not use it.
    pub fn run(self, input: &Input, strip: &mut [u8]) -> u64 {
        match self {
            Way::Port => PORT.run(input, strip),
            Way::Careful => CAREFUL.run(input, strip),
            Way::Reference => input.call().record().fields().len() as u64,
            Way::Read => read::read_all(walked(input, strip)),
            Way::ReadByFor => read::read_by_for(walked(input, strip)),
            Way::ReadInC => c_reader::read_all(walked(input, strip).bytes()),
        }
    }
}

/// The strip of an input that no walk turns down.
pub fn walked<'s>(input: &Input, strip: &'s mut [u8]) -> Strip<'s> {
    let (data, offset) = (&input.data, input.offset);
    let version = Version::try_from(input.version).expect("a version");
    let strip = match input.walk {
        Walk::Headers => ospf_strip::lsa_headers(version, data, offset, strip),
        Walk::Update => ospf_strip::lsu_lsas(version, data, input.count, offset, strip),
        Walk::Lsa => ospf_strip::lsa(version, data, offset, strip),
        Walk::Lls | Walk::AuthTrailer => panic!("no walk: {:?}", input.walk),
    };
    strip.expect("an accepted call")
}
