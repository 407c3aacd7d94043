//! The readings of blocks in `samples/oracle.bin`: each branch of the
//! reference's `trailer.rs`, each refusal with those after it, each room.

use inputs::{Class, Input, MOST_OFFSET, Rng, of_class, with_length_field};
use oracle::Walk;

use crate::chosen::Room;

const SEED: u64 = 0x05BF_5613_7166;

/// Lengths of data and length fields, tried with each other: around the least
/// block, and around blocks that fill the data. 16,385 words of four bytes are
/// four bytes in 16 bits.
const LLS: ([usize; 10], [u16; 7]) = (
    [0, 2, 3, 4, 5, 7, 8, 11, 12, 20],
    [0, 1, 2, 3, 5, 16_385, 65_535],
);
const AUTH_TRAILER: ([usize; 10], [u16; 7]) = (
    [0, 4, 15, 16, 17, 35, 36, 37, 48, 80],
    [0, 15, 16, 17, 36, 80, 65_535],
);

/// A whole block of either reading: extended options, and the digest of
/// HMAC-SHA-1.
const WHOLE: [(Walk, usize, u16); 2] = [(Walk::Lls, 12, 3), (Walk::AuthTrailer, 36, 36)];

/// The chosen inputs and the buffers lent to them.
pub fn chosen() -> Vec<(Input, Room)> {
    let mut list = List {
        rng: Rng::new(SEED),
        chosen: Vec::new(),
    };
    list.lengths(Walk::Lls, LLS);
    list.lengths(Walk::AuthTrailer, AUTH_TRAILER);
    list.rooms();
    list.refusals();
    list.generated();
    list.chosen
}

struct List {
    rng: Rng,
    chosen: Vec<(Input, Room)>,
}

impl List {
    /// Adds a reading of random data with this length field, as far as the
    /// data reach. The version byte, which is not looked at, takes turns.
    fn add(&mut self, walk: Walk, length: usize, field: u16, offset: u64, room: Room) {
        let data = with_length_field(&mut self.rng, length, field);
        let input = Input {
            class: Class::BlockLength,
            version: [3, 2, 0, 255][self.chosen.len() % 4],
            walk,
            data,
            count: 0,
            offset,
        };
        self.chosen.push((input, room));
    }

    /// Each length of data with each length field; offsets and rooms take
    /// turns.
    fn lengths(&mut self, walk: Walk, (lengths, fields): ([usize; 10], [u16; 7])) {
        for length in lengths {
            for field in fields {
                let turn = self.chosen.len();
                let offset = [0, 24, MOST_OFFSET, 70_000][turn % 4];
                let rooms = [Room::Exact, Room::Larger(7), Room::OneShort];
                self.add(walk, length, field, offset, rooms[turn % 3]);
            }
        }
    }

    /// A block that is there, alone and before other bytes, with each room;
    /// and one that is one byte short of it.
    fn rooms(&mut self) {
        for (walk, length, field) in WHOLE {
            for room in [
                Room::None,
                Room::OneShort,
                Room::Exact,
                Room::Larger(1),
                Room::Larger(64),
            ] {
                for length in [length - 1, length, length + 9] {
                    self.add(walk, length, field, MOST_OFFSET, room);
                }
            }
        }
    }

    /// Refusal 3 of a block that is there and of one that is not, with and
    /// without room; refusal 2 with all that could come after it.
    fn refusals(&mut self) {
        for (walk, length, field) in WHOLE {
            for offset in [MOST_OFFSET + 1, u64::MAX] {
                for length in [0, length - 1, length] {
                    for room in [Room::None, Room::Larger(80)] {
                        self.add(walk, length, field, offset, room);
                    }
                }
            }
            self.add(walk, 65_536, field, u64::MAX, Room::None);
        }
    }

    /// Some of the generator's own.
    fn generated(&mut self) {
        let chosen = &mut self.chosen;
        of_class(Class::Block, SEED, 5, &mut |input| {
            let rooms = [Room::Exact, Room::Larger(64), Room::OneShort];
            chosen.push((input, rooms[chosen.len() % 3]));
        });
    }
}
