//! The error type that the readers of `util` return.

/// Why bytes could not be read.
#[derive(Clone, Copy, Debug, PartialEq, Eq)]
pub enum PacketError {
    /// The data ends before what is to be read.
    Truncated { expected: usize, actual: usize },
    /// A header that contradicts itself.
    InvalidHeader(&'static str),
}
