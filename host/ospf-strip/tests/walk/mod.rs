//! An input through the wrapper, for the tests.

use inputs::Input;
use oracle::Walk;
use ospf_strip::{Block, Buffer, Refusal, Strip, Version};

pub fn run<'b>(buffer: &'b mut Buffer, input: &Input) -> Result<Strip<'b>, Refusal> {
    let (data, offset) = (&input.data, input.offset);
    let version = || Version::try_from(input.version);
    match input.walk {
        Walk::Headers => buffer.lsa_headers(version()?, data, offset),
        Walk::Update => buffer.lsu_lsas(version()?, data, input.count, offset),
        Walk::Lsa => buffer.lsa(version()?, data, offset),
        Walk::Lls => buffer.lls(data, offset).map(strip_of),
        Walk::AuthTrailer => buffer.auth_trailer(data, offset).map(strip_of),
    }
}

/// The strip of a block; that of an absent one is empty.
pub fn strip_of(block: Option<Block<'_>>) -> Strip<'_> {
    let empty = Strip::from_bytes(Version::V2, &[]).expect("no entry is cut");
    block.map_or(empty, |block| block.strip())
}
