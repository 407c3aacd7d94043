//! Entries into a lent strip. Each takes its bytes off the front by one test
//! and fills an array of known length.

const OPEN: u8 = 1;
const CLOSE: u8 = 2;
const U8: u8 = 3;
const U16: u8 = 4;
const U32: u8 = 5;
const IPV4: u8 = 6;
const IPV6: u8 = 7;
const BYTES: u8 = 8;
const UNREACHABLE: u8 = 9;
const U64: u8 = 10;

/// Whether a 24-bit metric says unreachable (RFC 2328 appendix B, LSInfinity).
#[inline]
pub fn is_unreachable(metric: u32) -> bool {
    metric == 0x00FF_FFFF
}

/// A strip as far as it is not written yet. It goes by value from entry to
/// entry, and so through registers.
pub struct Writer<'a>(&'a mut [u8]);

impl<'a> Writer<'a> {
    #[inline]
    pub fn new(strip: &'a mut [u8]) -> Writer<'a> {
        Writer(strip)
    }

    #[inline]
    fn take<const N: usize>(self) -> (&'a mut [u8; N], Writer<'a>) {
        let (entry, rest) = self.0.split_first_chunk_mut().expect("it was measured");
        (entry, Writer(rest))
    }

    /// An entry of `N` bytes, filled up to its value.
    #[inline]
    fn entry<const N: usize>(
        self,
        kind: u8,
        id: u8,
        start: u32,
        size: u32,
    ) -> (&'a mut [u8; N], Writer<'a>) {
        let (entry, rest) = self.take::<N>();
        entry[0] = kind;
        entry[1] = id;
        entry[2..6].copy_from_slice(&start.to_be_bytes());
        entry[6..10].copy_from_slice(&(start + size).to_be_bytes());
        (entry, rest)
    }

    /// An opening of a container with so many entries directly inside.
    #[inline]
    pub fn open(self, id: u8, start: u32, size: u32, count: u32) -> Writer<'a> {
        let (entry, rest) = self.entry::<14>(OPEN, id, start, size);
        entry[10..].copy_from_slice(&count.to_be_bytes());
        rest
    }

    /// An opening whose range or count is not known yet.
    #[inline]
    pub fn open_later(self) -> (Opening<'a>, Writer<'a>) {
        let (entry, rest) = self.take();
        (Opening(entry), rest)
    }

    #[inline]
    pub fn close(self) -> Writer<'a> {
        let (entry, rest) = self.take();
        *entry = [CLOSE];
        rest
    }

    #[inline]
    pub fn u8(self, id: u8, start: u32, value: u8) -> Writer<'a> {
        let (entry, rest) = self.entry::<11>(U8, id, start, 1);
        entry[10] = value;
        rest
    }

    #[inline]
    pub fn u16(self, id: u8, start: u32, value: u16) -> Writer<'a> {
        let (entry, rest) = self.entry::<12>(U16, id, start, 2);
        entry[10..].copy_from_slice(&value.to_be_bytes());
        rest
    }

    /// A u32 field over so many bytes.
    #[inline]
    pub fn u32(self, id: u8, start: u32, size: u32, value: u32) -> Writer<'a> {
        let (entry, rest) = self.entry::<14>(U32, id, start, size);
        entry[10..].copy_from_slice(&value.to_be_bytes());
        rest
    }

    /// A 24-bit metric: a u32 field, or unreachable, which has no value.
    #[inline]
    pub fn metric(self, id: u8, start: u32, metric: u32) -> Writer<'a> {
        if is_unreachable(metric) {
            self.entry::<10>(UNREACHABLE, id, start, 3).1
        } else {
            self.u32(id, start, 3, metric)
        }
    }

    #[inline]
    pub fn u64(self, id: u8, start: u32, value: u64) -> Writer<'a> {
        let (entry, rest) = self.entry::<18>(U64, id, start, 8);
        entry[10..].copy_from_slice(&value.to_be_bytes());
        rest
    }

    #[inline]
    pub fn ipv4(self, id: u8, start: u32, address: u32) -> Writer<'a> {
        let (entry, rest) = self.entry::<14>(IPV4, id, start, 4);
        entry[10..].copy_from_slice(&address.to_be_bytes());
        rest
    }

    /// The address of a prefix's octets, at most 16 of them.
    #[inline]
    pub fn ipv6(self, id: u8, start: u32, octets: &[u8]) -> Writer<'a> {
        let (entry, rest) = self.entry::<26>(IPV6, id, start, octets.len() as u32);
        let mut address = [0; 16];
        address[..octets.len()].copy_from_slice(octets);
        entry[10..].copy_from_slice(&address);
        rest
    }

    #[inline]
    pub fn bytes(self, id: u8, start: u32, size: u32) -> Writer<'a> {
        self.entry::<10>(BYTES, id, start, size).1
    }
}

/// The place of an opening.
pub struct Opening<'a>(&'a mut [u8; 14]);

impl Opening<'_> {
    #[inline]
    pub fn open(self, id: u8, start: u32, size: u32, count: u32) {
        Writer(self.0).open(id, start, size, count);
    }
}

/// The big-endian numbers of a part of known length; the tests fold away.
#[inline]
pub fn be16(from: &[u8], at: usize) -> u16 {
    u16::from_be_bytes([from[at], from[at + 1]])
}

// As an array, so that it is one load: put together from single bytes, those
// that `be24` keeps would be loaded one by one.
#[inline]
pub fn be32(from: &[u8], at: usize) -> u32 {
    u32::from_be_bytes(*from[at..].first_chunk().expect("a part of known length"))
}

#[inline]
pub fn be64(from: &[u8], at: usize) -> u64 {
    u64::from(be32(from, at)) << 32 | u64::from(be32(from, at + 4))
}

/// The low 24 bits of the word at `at`.
#[inline]
pub fn be24(from: &[u8], at: usize) -> u32 {
    be32(from, at) & 0x00FF_FFFF
}
