//! The calls of `samples/oracle.bin` with values of all ones: 24-bit metrics,
//! which say unreachable (RFC 2328 appendix B), and values that are numbers.

use inputs::{Class, Input, MOST_OFFSET, Rng, lsa, update};
use oracle::Walk;

use crate::chosen::Room;

const SEED: u64 = 0x05BF_00FF_FFFF;

const ONES: u32 = 0xFF_FFFF;

/// Metrics that lack one bit, in each of the three bytes.
const NEARLY: [u32; 3] = [0xFF_FFFE, 0xFF_FEFF, 0xFE_FFFF];

/// The metrics of a summary or an external, its own and then those of its TOS
/// entries: 1 is all ones, 0 nearly so.
const METRICS: [&str; 6] = ["0", "1", "01", "010", "001", "1111"];

/// The chosen inputs and the buffers lent to them.
pub fn chosen() -> Vec<(Input, Room)> {
    let mut list = List {
        rng: Rng::new(SEED),
        chosen: Vec::new(),
    };
    list.routes();
    list.numbers();
    list.updates();
    list.chosen
}

/// The three bytes of a metric.
fn metric(number: u32) -> [u8; 3] {
    let [_, bytes @ ..] = number.to_be_bytes();
    bytes
}

/// A body of version 2 type 3 or 4.
fn summary(metrics: &[u32]) -> Vec<u8> {
    let entries = metrics
        .iter()
        .flat_map(|&number| [&[8], &metric(number)[..]].concat());
    [255, 255, 255, 0].into_iter().chain(entries).collect()
}

/// A body of version 2 type 5 or 7. The tags have the same number as a metric of
/// all ones.
fn external(metrics: &[u32]) -> Vec<u8> {
    let entry = |&number| {
        [
            &[0x80],
            &metric(number)[..],
            &[10, 0, 0, 9],
            &[0, 255, 255, 255],
        ]
        .concat()
    };
    let entries = metrics.iter().flat_map(entry);
    [255, 255, 255, 0].into_iter().chain(entries).collect()
}

/// A body of version 3 with this metric: function 4 has options before it, 5 and
/// 7 a tag after the prefix, which is empty.
fn route_v3(function: u16, number: u32) -> Vec<u8> {
    let metric = metric(number);
    match function {
        3 => [&[0], &metric[..], &[0; 4]].concat(),
        4 => [&[0, 255, 255, 255, 0], &metric[..], &[10, 0, 0, 9]].concat(),
        _ => [&[1], &metric[..], &[0; 4], &[0, 255, 255, 255]].concat(),
    }
}

struct List {
    rng: Rng,
    chosen: Vec<(Input, Room)>,
}

impl List {
    /// Adds a call whose strip is stored, and before every second one the same
    /// call without the room for it.
    fn add(&mut self, version: u8, walk: Walk, count: u32, data: Vec<u8>) {
        let turn = self.chosen.len();
        let input = Input {
            class: Class::Unreachable,
            version,
            walk,
            data,
            count,
            offset: [0, 24, MOST_OFFSET, 70_000, 1_480][turn % 5],
        };
        // Two are added, then one.
        if turn.is_multiple_of(3) {
            let short = [Room::OneShort, Room::None][turn % 2];
            self.chosen.push((input.clone(), short));
        }
        let room = [Room::Exact, Room::Larger(7)][turn % 2];
        self.chosen.push((input, room));
    }

    fn single(&mut self, version: u8, function: u16, body: &[u8]) {
        let data = lsa(&mut self.rng, version, function, body);
        self.add(version, Walk::Lsa, 0, data);
    }

    /// Each body that has a 24-bit metric.
    fn routes(&mut self) {
        for ls_type in [3, 4, 5, 7] {
            for (turn, metrics) in METRICS.into_iter().enumerate() {
                let number = |c| if c == '1' { ONES } else { NEARLY[turn % 3] };
                let metrics: Vec<u32> = metrics.chars().map(number).collect();
                let body = if ls_type < 5 { summary } else { external }(&metrics);
                self.single(2, ls_type, &body);
            }
        }
        for (turn, function) in [3, 4, 5, 7].into_iter().enumerate() {
            for number in [ONES, NEARLY[turn % 3]] {
                self.single(3, function, &route_v3(function, number));
            }
        }
    }

    /// All ones in opaque ids, options, the metrics of links, of their TOS entries
    /// and of prefixes.
    fn numbers(&mut self) {
        for ls_type in 9..=11 {
            let mut data = lsa(&mut self.rng, 2, ls_type, &[]);
            data[4..8].copy_from_slice(&[1, 255, 255, 255]);
            self.add(2, Walk::Lsa, 0, data.clone());
            self.add(2, Walk::Headers, 0, data);
        }
        let link = [&[0, 0, 0, 1][..], &[9; 8], &[1, 1], &[255; 6]].concat();
        self.single(2, 1, &link);
        let link = [&[0, 255, 255, 255, 1, 0, 255, 255][..], &[9; 12]].concat();
        self.single(3, 1, &link);
        for (function, length) in [(2, 4), (8, 24), (33, 4), (34, 4), (40, 4)] {
            let mut body = vec![0; length];
            body[1..4].fill(255);
            self.single(3, function, &body);
        }
        let prefix = [&[0, 1, 0x20, 1][..], &[9; 8], &[0, 0, 255, 255]].concat();
        self.single(3, 9, &prefix);
    }

    /// Updates of one record of each type that has a 24-bit metric; in every second
    /// record the metrics are all ones.
    fn updates(&mut self) {
        for metrics in [[ONES, NEARLY[0]], [NEARLY[0], ONES]] {
            let mut turns = metrics.into_iter().cycle();
            let mut record = |version, function| {
                let number = turns.next().expect("a metric");
                let body = match (version, function) {
                    (2, 3 | 4) => summary(&[number, number]),
                    (2, _) => external(&[number, number]),
                    _ => route_v3(function, number),
                };
                lsa(&mut self.rng, version, function, &body)
            };
            let records = [2, 3].map(|version| [3, 4, 5, 7].map(|t| record(version, t)));
            for (version, records) in [2, 3].into_iter().zip(records) {
                self.add(version, Walk::Update, 4, update(4, &records));
            }
        }
    }
}
