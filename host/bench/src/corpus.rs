//! What the benchmark runs over: one kind of message after another, the
//! published captures, blocks of each kind, prefixes, and books with updates.

use inputs::{Class, Input, Rng, lsa, update, with_length_field};
use oracle::Walk;
use ospf_strip::Row;

/// Where the data stands in its packet: after an Ethernet, an IPv4 and an
/// OSPF header.
const OFFSET: u64 = 14 + 20 + 24;

/// A kind of message. A new one goes last, since its place here is part of the
/// seed of its contents.
#[derive(Clone, Copy, Debug, PartialEq, Eq)]
pub enum Kind {
    RouterV2,
    RouterTosV2,
    SummaryV2,
    ExternalV2,
    RouterV3,
    IntraAreaPrefixV3,
    HeadersV2,
    HeadersV3,
    Captures,
    SummaryTosV2,
    ExternalTosV2,
    InterAreaPrefixV3,
    ExternalV3,
}

/// All kinds, in the order in which they are printed.
pub const KINDS: [Kind; 13] = [
    Kind::RouterV2,
    Kind::RouterTosV2,
    Kind::SummaryV2,
    Kind::SummaryTosV2,
    Kind::ExternalV2,
    Kind::ExternalTosV2,
    Kind::RouterV3,
    Kind::InterAreaPrefixV3,
    Kind::ExternalV3,
    Kind::IntraAreaPrefixV3,
    Kind::HeadersV2,
    Kind::HeadersV3,
    Kind::Captures,
];

impl Kind {
    /// What the kind holds, in a few words.
    pub fn name(self) -> &'static str {
        match self {
            Kind::RouterV2 => "v2 router LSAs",
            Kind::RouterTosV2 => "v2 router LSAs with TOS",
            Kind::SummaryV2 => "v2 summary LSAs",
            Kind::SummaryTosV2 => "v2 summary LSAs with TOS",
            Kind::ExternalV2 => "v2 external LSAs",
            Kind::ExternalTosV2 => "v2 external LSAs with TOS",
            Kind::RouterV3 => "v3 router LSAs",
            Kind::InterAreaPrefixV3 => "v3 inter-area-prefix LSAs",
            Kind::ExternalV3 => "v3 external LSAs",
            Kind::IntraAreaPrefixV3 => "v3 intra-area-prefix LSAs",
            Kind::HeadersV2 => "v2 header list",
            Kind::HeadersV3 => "v3 header list",
            Kind::Captures => "captures",
        }
    }

    /// The inputs of the kind, one of at most `size` bytes; for the captures
    /// all of them, whatever the size.
    pub fn inputs(self, size: usize) -> Vec<Input> {
        self.seeded(size, 0)
    }

    /// The same with other random contents, by the seed; the captures are as
    /// they are.
    pub fn seeded(self, size: usize, seed: u64) -> Vec<Input> {
        let mut rng = Rng::new(seed << 8 | self as u64);
        let rng = &mut rng;
        match self {
            Kind::HeadersV2 | Kind::HeadersV3 => vec![self.headers(rng, size)],
            Kind::Captures => captured(),
            _ => vec![self.update(rng, size)],
        }
    }

    fn version(self) -> u8 {
        match self {
            Kind::RouterV3
            | Kind::InterAreaPrefixV3
            | Kind::ExternalV3
            | Kind::IntraAreaPrefixV3
            | Kind::HeadersV3 => 3,
            _ => 2,
        }
    }

    /// An update of as many LSAs as fit.
    fn update(self, rng: &mut Rng, size: usize) -> Input {
        let mut records: Vec<Vec<u8>> = Vec::new();
        let mut length = 4;
        loop {
            let record = self.lsa(rng);
            length += record.len();
            if length > size {
                break;
            }
            records.push(record);
        }
        let count = records.len() as u32;
        input(self.version(), Walk::Update, update(count, &records), count)
    }

    /// A list of as many headers as fit, of router LSAs.
    fn headers(self, rng: &mut Rng, size: usize) -> Input {
        let version = self.version();
        let headers: Vec<Vec<u8>> = (0..size / 20).map(|_| lsa(rng, version, 1, &[])).collect();
        input(version, Walk::Headers, headers.concat(), 0)
    }

    /// One LSA with random contents and lengths as they are met with.
    fn lsa(self, rng: &mut Rng) -> Vec<u8> {
        let body = match self {
            Kind::RouterV2 => {
                let links = 2 + rng.below(30);
                router_v2(rng, links, &[0])
            }
            Kind::RouterTosV2 => {
                let links = 2 + rng.below(30);
                router_v2(rng, links, &[0, 1, 2, 4])
            }
            Kind::SummaryV2 => rng.bytes(8),
            Kind::SummaryTosV2 => with_tos(rng, 8, 4),
            Kind::ExternalV2 => rng.bytes(16),
            Kind::ExternalTosV2 => with_tos(rng, 16, 12),
            Kind::RouterV3 => {
                let links = 2 + rng.below(30);
                rng.bytes(4 + 16 * links)
            }
            Kind::InterAreaPrefixV3 => inter_area_prefix(rng),
            Kind::ExternalV3 => external_v3(rng),
            _ => {
                let prefixes = 2 + rng.below(30);
                intra_area_prefix(rng, prefixes)
            }
        };
        let ls_type = match self {
            Kind::RouterV2 | Kind::RouterTosV2 => 1,
            Kind::SummaryV2 | Kind::SummaryTosV2 => 3,
            Kind::ExternalV2 | Kind::ExternalTosV2 => 5,
            Kind::RouterV3 => 0x2001,
            Kind::InterAreaPrefixV3 => 0x2003,
            Kind::ExternalV3 => 0x4005,
            _ => 0x2009,
        };
        lsa(rng, self.version(), ls_type, &body)
    }
}

fn input(version: u8, walk: Walk, data: Vec<u8>, count: u32) -> Input {
    Input {
        class: Class::Large,
        version,
        walk,
        data,
        count,
        offset: OFFSET,
    }
}

/// All inputs of the published captures that no walk turns down.
fn captured() -> Vec<Input> {
    let files = captures::published().expect("the published captures");
    let inputs = files.iter().flat_map(|(_, file)| captures::inputs(file));
    inputs
        .filter(|input| super::PORT.run(input, &mut []) >> 32 == 5)
        .collect()
}

fn router_v2(rng: &mut Rng, links: usize, tos: &[u8]) -> Vec<u8> {
    let mut body = rng.bytes(4);
    body[2..4].copy_from_slice(&(links as u16).to_be_bytes());
    for _ in 0..links {
        let tos = rng.pick(tos);
        let mut link = rng.bytes(12 + 4 * tos as usize);
        link[9] = tos;
        body.extend(link);
    }
    body
}

/// A version 2 route of `fixed` bytes and two to eight TOS entries of `each`.
/// Both have their metric in the last three bytes of a word.
fn with_tos(rng: &mut Rng, fixed: usize, each: usize) -> Vec<u8> {
    let tos = 2 + rng.below(7);
    let mut body = rng.bytes(fixed + each * tos);
    some_unreachable(rng, &mut body[4..8]);
    for entry in body[fixed..].chunks_exact_mut(each) {
        some_unreachable(rng, &mut entry[..4]);
    }
    body
}

/// Makes the metric in this word unreachable, one time in eight.
fn some_unreachable(rng: &mut Rng, word: &mut [u8]) {
    if rng.below(8) == 0 {
        word[1..].fill(0xFF);
    }
}

/// Prefixes mostly of 64 bits, as on links, some of other lengths.
const PREFIX_LENGTHS: [u8; 10] = [64, 64, 64, 64, 128, 128, 56, 48, 32, 0];

fn intra_area_prefix(rng: &mut Rng, prefixes: usize) -> Vec<u8> {
    let mut body = rng.bytes(12);
    body[..2].copy_from_slice(&(prefixes as u16).to_be_bytes());
    for _ in 0..prefixes {
        body.extend(prefix(rng));
    }
    body
}

/// An entry of a prefix list.
fn prefix(rng: &mut Rng) -> Vec<u8> {
    let length = rng.pick(&PREFIX_LENGTHS);
    let mut entry = rng.bytes(4 + usize::from(length).div_ceil(32) * 4);
    entry[0] = length;
    entry
}

/// A version 3 route: a word with the metric, then the prefix.
fn inter_area_prefix(rng: &mut Rng) -> Vec<u8> {
    let mut body = rng.bytes(4);
    some_unreachable(rng, &mut body);
    body.extend(prefix(rng));
    body
}

/// The same with what its flags ask for; no other LSA is referenced.
fn external_v3(rng: &mut Rng) -> Vec<u8> {
    let mut body = inter_area_prefix(rng);
    body[6..8].fill(0);
    let forwarding = if body[0] & 2 != 0 { 16 } else { 0 };
    let tag = if body[0] & 1 != 0 { 4 } else { 0 };
    body.extend(rng.bytes(forwarding + tag));
    body
}

/// Blocks by row: what it is called, the reading, the length of the data and the
/// length field. Trailers have the digests of RFC 7166, or none.
pub const BLOCKS: [(&str, Walk, usize, u16); 9] = [
    ("LLS, 4 bytes", Walk::Lls, 4, 1),
    ("LLS, 12 bytes", Walk::Lls, 12, 3),
    ("LLS, 1,024 bytes", Walk::Lls, 1_024, 256),
    ("LLS, absent", Walk::Lls, 12, 4),
    ("trailer, 16 bytes", Walk::AuthTrailer, 16, 16),
    ("trailer, 36 bytes", Walk::AuthTrailer, 36, 36),
    ("trailer, 48 bytes", Walk::AuthTrailer, 48, 48),
    ("trailer, 80 bytes", Walk::AuthTrailer, 80, 80),
    ("trailer, absent", Walk::AuthTrailer, 36, 37),
];

/// The blocks of a row, with random contents.
pub fn blocks(row: usize) -> Vec<Input> {
    let (_, walk, length, field) = BLOCKS[row];
    let mut rng = Rng::new(row as u64);
    let block = |_| input(3, walk, with_length_field(&mut rng, length, field), 0);
    (0..64).map(block).collect()
}

/// Two prefixes, each a length in bits and octets.
pub type Prefixes = (u8, Vec<u8>, u8, Vec<u8>);

/// A name, the lengths of the first and of the second prefix, and the first
/// bit from which on they differ.
pub const PREFIXES: [(&str, u8, u8, u8); 7] = [
    ("no bits", 0, 0, 128),
    ("same, 48 bits", 48, 48, 128),
    ("same, 64 bits", 64, 64, 128),
    ("same, 128 bits", 128, 128, 128),
    ("same, junk past 52 bits", 52, 52, 52),
    ("different, 64 bits", 64, 64, 16),
    ("lengths 56 and 64", 56, 64, 56),
];

/// The pairs of a row, with random addresses, and octets as packets have them.
pub fn prefixes(row: usize) -> Vec<Prefixes> {
    let (_, first, second, from) = PREFIXES[row];
    let mut rng = Rng::new(row as u64);
    let junk = u128::MAX.checked_shr(from.into()).unwrap_or(0);
    let octets = |length: u8, address: u128| {
        let n = usize::from(length).div_ceil(32) * 4;
        address.to_be_bytes()[..n].to_vec()
    };
    let pair = |_| {
        let address = u128::from(rng.bits()) << 64 | u128::from(rng.bits());
        let other = address ^ junk;
        (first, octets(first, address), second, octets(second, other))
    };
    (0..64).map(pair).collect()
}

/// Rows of version 2, and updates of which each is taken against them.
pub struct Book {
    pub rows: Vec<Row>,
    pub updates: Vec<Vec<u8>>,
}

/// How many rows a book has, and how many LSAs each of its updates.
pub const BOOKS: [(usize, usize); 6] = [
    (100, 10),
    (1_000, 10),
    (10_000, 10),
    (100, MOST_LSAS),
    (1_000, MOST_LSAS),
    (10_000, MOST_LSAS),
];

/// As many as 65,535 bytes hold, without bodies.
const MOST_LSAS: usize = 3_276;

/// The book of a row. One row in twenty is unused, but for the book whose 100
/// rows are named by a whole update. Of the LSAs half are newer than their row
/// and most others the same; one in ten is older where there are ten, and one in
/// ten new there, one in a hundred where there are most.
pub fn book(row: usize) -> Book {
    let (number, lsas) = BOOKS[row];
    let mut rng = Rng::new(row as u64);
    let all_named = (number, lsas) == (100, MOST_LSAS);
    let used = if all_named { number } else { number / 20 * 19 };
    let known: Vec<Row> = (0..number).map(|n| external(&mut rng, n)).collect();
    let mut rows = known[..used].to_vec();
    rows.resize(number, Row::default());
    let updates = if lsas == MOST_LSAS { 1 } else { 16 };
    let mut update_of = |_| {
        let records: Vec<Vec<u8>> = (0..lsas)
            .map(|n| {
                let row = known[rng.below(used)];
                let sequence = row.sequence;
                match (n % 10, n % 100) {
                    (9, _) if lsas == 10 => header(&known[used + rng.below(number - used)]),
                    (_, 99) if !all_named => header(&known[used + n / 100]),
                    (8, _) if lsas == 10 => instance(row, sequence - 1),
                    (i, _) if i % 2 == 0 => instance(row, sequence + 1),
                    _ => header(&row),
                }
            })
            .collect();
        update(lsas as u32, &records)
    };
    let updates = (0..updates).map(&mut update_of).collect();
    Book { rows, updates }
}

/// An AS-external-LSA of one of two routers, which both have each network.
fn external(rng: &mut Rng, number: usize) -> Row {
    Row {
        version: 2,
        used: 1,
        ls_type: 5,
        link_state_id: 0x0A00_0000 + number as u32 / 2 * 256,
        advertising_router: 0xC0A8_0001 + number as u32 % 2,
        sequence: 0x8000_0002 + rng.below(50) as u32,
        checksum: rng.bits() as u16,
        age: rng.below(1_800) as u16,
    }
}

/// Another instance of a row's LSA.
fn instance(row: Row, sequence: u32) -> Vec<u8> {
    let checksum = row.checksum ^ sequence as u16;
    header(&Row {
        sequence,
        checksum,
        age: 1,
        ..row
    })
}

/// The header of a row's LSA, which declares no body.
fn header(row: &Row) -> Vec<u8> {
    let [options, ls_type] = [2, row.ls_type as u8];
    [
        &row.age.to_be_bytes()[..],
        &[options, ls_type],
        &row.link_state_id.to_be_bytes(),
        &row.advertising_router.to_be_bytes(),
        &row.sequence.to_be_bytes(),
        &row.checksum.to_be_bytes(),
        &20_u16.to_be_bytes(),
    ]
    .concat()
}

/// An input that costs a walk much, and why.
pub struct Worst {
    pub name: &'static str,
    pub input: Input,
}

/// The most data, in the forms that need the deepest or longest work.
pub fn worst() -> Vec<Worst> {
    let mut rng = Rng::new(1);
    let rng = &mut rng;
    let single = |version, data| input(version, Walk::Lsa, data, 0);
    let counted = |version, data| input(version, Walk::Update, data, u32::MAX);
    let most = 65_535;
    vec![
        Worst {
            name: "v3 intra-area-prefix LSA, prefixes of no octet",
            input: single(3, zero_prefixes(rng, 0x2009, 12, most)),
        },
        Worst {
            name: "v3 link LSA, prefixes of no octet",
            input: single(3, zero_prefixes(rng, 0x0008, 24, most)),
        },
        Worst {
            name: "v3 router LSA, most links",
            input: single(3, filled(rng, 3, 0x2001, most)),
        },
        Worst {
            name: "v2 router LSA, most links",
            input: single(2, links_without_tos(rng, most)),
        },
        Worst {
            name: "v2 summary LSA, most TOS metrics",
            input: single(2, filled(rng, 2, 3, most)),
        },
        Worst {
            name: "v2 external LSA, most TOS metrics",
            input: single(2, filled(rng, 2, 5, most)),
        },
        Worst {
            name: "v2 update, most records",
            input: counted(2, records(rng, 2, most)),
        },
        Worst {
            name: "v3 update, most records",
            input: counted(3, records(rng, 3, most)),
        },
        Worst {
            name: "v3 update, one intra-area-prefix LSA",
            input: counted(
                3,
                [vec![0; 4], zero_prefixes(rng, 0x2009, 12, most - 4)].concat(),
            ),
        },
        Worst {
            name: "v2 header list, opaque LSAs",
            input: input(2, Walk::Headers, opaque_headers(rng, most), 0),
        },
        Worst {
            name: "v3 header list",
            input: input(3, Walk::Headers, rng.bytes(most), 0),
        },
    ]
}

/// An LSA of `size` bytes and this type with a random body.
fn filled(rng: &mut Rng, version: u8, ls_type: u16, size: usize) -> Vec<u8> {
    let body = rng.bytes(size - 20);
    lsa(rng, version, ls_type, &body)
}

/// An LSA whose prefixes are all of length 0, from `first` of its body on;
/// its count is the largest.
fn zero_prefixes(rng: &mut Rng, ls_type: u16, first: usize, size: usize) -> Vec<u8> {
    let mut body = vec![0xFF; first];
    body.resize(size - 20, 0);
    lsa(rng, 3, ls_type, &body)
}

fn links_without_tos(rng: &mut Rng, size: usize) -> Vec<u8> {
    let links = (size - 24) / 12;
    let mut body = router_v2(rng, links, &[0]);
    body.resize(size - 20, 0);
    lsa(rng, 2, 1, &body)
}

/// As many records without a body as fit.
fn records(rng: &mut Rng, version: u8, size: usize) -> Vec<u8> {
    let records: Vec<Vec<u8>> = (0..(size - 4) / 20)
        .map(|_| lsa(rng, version, 10, &[]))
        .collect();
    let mut data = update(u32::MAX, &records);
    data.resize(size, 0);
    data
}

fn opaque_headers(rng: &mut Rng, size: usize) -> Vec<u8> {
    let headers: Vec<Vec<u8>> = (0..size / 20).map(|_| lsa(rng, 2, 10, &[])).collect();
    let mut data = headers.concat();
    data.resize(size, 0);
    data
}
