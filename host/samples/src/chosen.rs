//! The inputs of `samples/oracle.bin`, chosen so that each branch of the
//! reference's ported functions is taken (host/README.md has the figure).

use inputs::{Class, Input, MOST_OFFSET, Rng, lsa, of_class, structured, update};
use oracle::Walk;

use crate::{blocks, unreachable};

/// How long a buffer to lend, as seen from the length that is needed.
#[derive(Clone, Copy, Debug, PartialEq, Eq)]
pub enum Room {
    None,
    OneShort,
    Exact,
    Larger(usize),
}

impl Room {
    /// The buffer's length where `needed` bytes are needed.
    pub fn of(self, needed: usize) -> usize {
        match self {
            Room::None => 0,
            Room::OneShort => needed.saturating_sub(1),
            Room::Exact => needed,
            Room::Larger(more) => needed + more,
        }
    }
}

const SEED: u64 = 0x05BF_2328_5340;

/// The chosen inputs and the buffers lent to them.
pub fn chosen() -> Vec<(Input, Room)> {
    let mut list = List {
        rng: Rng::new(SEED),
        chosen: Vec::new(),
    };
    list.v2_bodies();
    list.v3_bodies();
    list.opaques();
    list.tos_and_links();
    list.prefixes();
    list.externals();
    list.header_lists();
    list.updates();
    list.refusals();
    list.generated();
    list.large();
    list.chosen.extend(unreachable::chosen());
    list.chosen.extend(blocks::chosen());
    list.chosen
}

struct List {
    rng: Rng,
    chosen: Vec<(Input, Room)>,
}

impl List {
    /// Adds a call; offsets and buffers take turns.
    fn add(&mut self, version: u8, walk: Walk, count: u32, data: Vec<u8>) {
        let turn = self.chosen.len();
        let offset = [0, 0, 24, MOST_OFFSET, 1_480, 70_000][turn % 6];
        let room = [
            Room::Exact,
            Room::Larger(7),
            Room::Exact,
            Room::Larger(200),
            Room::OneShort,
        ];
        let input = Input {
            class: Class::Structured,
            version,
            walk,
            data,
            count,
            offset,
        };
        self.chosen.push((input, room[turn % 5]));
    }

    fn single(&mut self, version: u8, ls_type: u16, body: &[u8]) {
        let data = lsa(&mut self.rng, version, ls_type, body);
        self.add(version, Walk::Lsa, 0, data);
    }

    /// Version 2 bodies of random contents, of lengths around the least and
    /// around whole entries.
    fn v2_bodies(&mut self) {
        let v2: [(u16, &[usize]); 9] = [
            (0, &[0, 1]),
            (2, &[0, 3, 4, 7, 8, 16]),
            (3, &[0, 7, 8, 11, 12, 20]),
            (4, &[7, 8, 13, 16]),
            (5, &[0, 15, 16, 27, 28, 40]),
            (6, &[0, 5]),
            (7, &[15, 16, 39, 40, 41]),
            (8, &[12]),
            (12, &[0, 9]),
        ];
        for (ls_type, lengths) in v2 {
            self.random_bodies(2, ls_type, lengths);
        }
    }

    /// The same for version 3.
    fn v3_bodies(&mut self) {
        let v3: [(u16, &[usize]); 17] = [
            (0, &[0, 6]),
            (1, &[0, 3, 4, 19, 20, 36, 39]),
            (2, &[3, 4, 7, 8, 16]),
            (4, &[0, 11, 12, 13]),
            (6, &[8]),
            (12, &[0, 3, 12]),
            (33, &[0, 3, 4, 5, 24]),
            (34, &[3, 4, 9]),
            (35, &[0, 17]),
            (36, &[16]),
            (37, &[12]),
            (38, &[12]),
            (39, &[20]),
            (40, &[3, 4, 8]),
            (41, &[11, 12, 30]),
            (42, &[0, 28]),
            (0x1FFF, &[2]),
        ];
        for (function, lengths) in v3 {
            self.random_bodies(3, function, lengths);
        }
    }

    fn random_bodies(&mut self, version: u8, ls_type: u16, lengths: &[usize]) {
        for &length in lengths {
            let scope = (self.rng.below(8) as u16) << 13;
            let scope = if version == 2 { 0 } else { scope };
            let body = self.rng.bytes(length);
            self.single(version, ls_type | scope, &body);
        }
    }

    /// Opaque LSAs of each type, with and without a body.
    fn opaques(&mut self) {
        for opaque_type in [0, 1, 2, 3, 4, 7, 8, 9, 255] {
            for length in [0, 18] {
                for ls_type in 9..=11 {
                    let body = self.rng.bytes(length);
                    let mut data = lsa(&mut self.rng, 2, ls_type, &body);
                    data[4] = opaque_type;
                    self.add(2, Walk::Lsa, 0, data);
                }
            }
        }
    }

    /// Version 2 router bodies: flags, link counts, TOS counts.
    fn tos_and_links(&mut self) {
        for flags in [0, 1, 2, 4, 16, 0x17, 0xE8, 0xFF] {
            self.single(2, 1, &[flags, 0, 0, 0]);
        }
        for length in 0..4 {
            let body = self.rng.bytes(length);
            self.single(2, 1, &body);
        }
        for tos in [0, 1, 2, 255] {
            for cut in [0, 1] {
                let link = self.link(tos);
                let body = [vec![3, 0, 0, 1], link].concat();
                self.single(2, 1, &body[..body.len() - cut]);
            }
        }
        for count in [0, 1, 2, 3, 65_535] {
            for extra in [0, 11, 12] {
                let (first, second) = (self.link(1), self.link(0));
                let mut body = [vec![0, 9], Vec::from(u16::to_be_bytes(count))].concat();
                body.extend([first, second, vec![9; extra]].concat());
                self.single(2, 1, &body);
            }
        }
    }

    fn link(&mut self, tos: u8) -> Vec<u8> {
        let mut link = self.rng.bytes(12 + 4 * tos as usize);
        link[9] = tos;
        link
    }

    /// Prefix lengths in functions 3, 8 and 9, and counts of the lists.
    fn prefixes(&mut self) {
        for length in [0, 1, 32, 33, 64, 65, 96, 97, 128, 129, 255] {
            for left in [4, 7, 8, 11, 12, 15, 16, 23, 24] {
                let mut body = self.rng.bytes(left);
                body.iter_mut().skip(4).take(1).for_each(|b| *b = length);
                self.single(3, 3, &body);
            }
            for function in [8, 9] {
                for cut in [0, 1] {
                    self.prefix_list(function, 2, &[20, length], cut);
                }
            }
        }
        for (function, least) in [(8, 24), (9, 12)] {
            for length in [0, least - 1, least, least + 1, least + 3, least + 4] {
                let mut body = self.rng.bytes(length);
                body.iter_mut().skip(least).take(1).for_each(|b| *b = 0);
                self.single(3, function, &body);
            }
            for count in [0, 1, 3, 4, 65_535] {
                self.prefix_list(function, count, &[0, 64, 128], 0);
            }
        }
        self.prefix_list(8, u32::MAX, &[0, 64, 128], 0);
    }

    fn prefix_list(&mut self, function: u16, count: u32, lengths: &[u8], cut: usize) {
        let mut body = self.rng.bytes(if function == 8 { 24 } else { 12 });
        let bytes = count.to_be_bytes();
        match function {
            8 => body[20..24].copy_from_slice(&bytes),
            _ => body[..2].copy_from_slice(&bytes[2..]),
        }
        for &length in lengths {
            let octets = 4 * (length.min(128) as usize).div_ceil(32);
            let mut entry = self.rng.bytes(4 + octets);
            entry[0] = length;
            body.extend(entry);
        }
        self.single(3, function, &body[..body.len() - cut]);
    }

    /// Version 3 externals: each optional part, alone and with the others.
    fn externals(&mut self) {
        for length in [0, 4, 5, 7] {
            let body = self.rng.bytes(length);
            self.single(3, 5, &body);
        }
        for flags in [0, 1, 2, 3, 4, 0xFF] {
            for referenced in [0, 1, 0x2001] {
                for (prefix_length, cut) in [(0, 0), (64, 0), (64, 1), (128, 0), (129, 0)] {
                    self.external(flags, prefix_length, referenced, cut);
                }
            }
        }
    }

    fn external(&mut self, flags: u8, prefix_length: u8, referenced: u16, cut: usize) {
        let octets = 4 * (prefix_length.min(128) as usize).div_ceil(32);
        let optional = 16 * usize::from(flags & 2 != 0)
            + 4 * usize::from(flags & 1 != 0)
            + 4 * usize::from(referenced != 0);
        let mut body = self.rng.bytes(8 + octets + optional);
        body[0] = flags;
        body[4] = prefix_length;
        body[6..8].copy_from_slice(&referenced.to_be_bytes());
        let function = if flags & 4 == 0 { 5 } else { 7 };
        self.single(3, 0x2000 | function, &body[..body.len() - cut]);
    }

    fn header_lists(&mut self) {
        for version in [2, 3] {
            for length in [0, 1, 19, 20, 21, 39, 40, 79, 80] {
                let data = self.rng.bytes(length);
                self.add(version, Walk::Headers, 0, data);
            }
            for ls_type in 8..=12 {
                let data = lsa(&mut self.rng, version, ls_type, &[]);
                self.add(version, Walk::Headers, 0, data);
            }
        }
    }

    /// Updates by count, by declared length, and with a tail.
    fn updates(&mut self) {
        for version in [2, 3] {
            for length in [4, 5, 23] {
                let data = self.rng.bytes(length);
                self.add(version, Walk::Update, 7, data);
            }
            for declared in (0..=21).chain([43, 44, 45, 65_535]) {
                self.declared(version, declared);
            }
            let records: Vec<Vec<u8>> =
                (0..3).map(|_| structured(&mut self.rng, version)).collect();
            for count in [0, 1, 2, 3, 4, u32::MAX] {
                for tail in [0, 19, 20] {
                    let mut data = update(count, &records);
                    data.extend(vec![0; tail]);
                    self.add(version, Walk::Update, count, data);
                }
            }
        }
    }

    /// Two records; the first declares this length.
    fn declared(&mut self, version: u8, length: u16) {
        let first = lsa(&mut self.rng, version, 2, &[255, 255, 255, 0]);
        let second = lsa(&mut self.rng, version, 1, &[]);
        let mut data = update(2, &[first, second]);
        data[22..24].copy_from_slice(&length.to_be_bytes());
        self.add(version, Walk::Update, 2, data);
    }

    /// Refusals 1 to 5, alone and with later ones beside them.
    fn refusals(&mut self) {
        let walks = [Walk::Headers, Walk::Update, Walk::Lsa];
        for walk in walks {
            for version in [0, 1, 2, 3, 4, 255] {
                for offset in [0, MOST_OFFSET, MOST_OFFSET + 1, u64::MAX] {
                    for length in [0, 3, 4, 19, 20] {
                        self.refusal(version, walk, length, offset);
                    }
                }
            }
        }
    }

    fn refusal(&mut self, version: u8, walk: Walk, length: usize, offset: u64) {
        let input = Input {
            class: Class::Refused,
            version,
            walk,
            data: self.rng.bytes(length),
            count: u32::from(walk == Walk::Update),
            offset,
        };
        // Every combination would be too many; each walk keeps a third.
        let turn = self.rng.below(9);
        if turn < 3 {
            self.chosen
                .push((input, [Room::None, Room::OneShort, Room::Larger(1)][turn]));
        }
    }

    /// A few of the generator's own, kept small.
    fn generated(&mut self) {
        let classes = [
            (Class::Structured, 2_u32, 2_usize),
            (Class::Truncated, 12, 23),
            (Class::Damaged, 12, 7),
            (Class::Random, 3, 4),
            (Class::Count, 1, 71),
        ];
        for (class, rounds, step) in classes {
            let mut seen = 0;
            let chosen = &mut self.chosen;
            of_class(class, SEED, rounds, &mut |input| {
                seen += 1;
                if seen % step == 0 && input.data.len() < 2_048 {
                    let room = [Room::Exact, Room::Larger(64), Room::OneShort][seen % 3];
                    chosen.push((input, room));
                }
            });
        }
    }

    /// The largest data, and the largest strip, of which the length alone is
    /// stored.
    fn large(&mut self) {
        let large = |version, walk, data: Vec<u8>| Input {
            class: Class::Large,
            version,
            walk,
            data,
            count: if walk == Walk::Update { u32::MAX } else { 0 },
            offset: MOST_OFFSET,
        };
        let mut raw = vec![0; 65_535];
        raw[22..24].copy_from_slice(&65_531_u16.to_be_bytes());
        self.chosen.push((large(2, Walk::Update, raw), Room::Exact));
        let headers = large(2, Walk::Headers, self.rng.bytes(65_535));
        self.chosen.push((headers, Room::Larger(3)));
        let too_long = large(3, Walk::Lsa, vec![0; 65_536]);
        self.chosen.push((too_long, Room::Larger(16)));
        let mut longest = vec![0; 65_535];
        longest[3] = 9;
        longest[20..22].copy_from_slice(&[0xFF, 0xFF]);
        self.chosen
            .push((large(3, Walk::Lsa, longest), Room::OneShort));
    }
}
