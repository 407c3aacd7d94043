//! Stored answers of the oracle: their format and what they are made of.
//!
//! samples/README.md has the format. [`oracle_bin`] and [`captures_bin`] give
//! the whole contents of the two files; the same bytes at every run.

mod blocks;
mod chosen;
mod format;
mod unreachable;

pub use chosen::{Room, chosen};
pub use format::{Sample, read, write};

use std::io;

use inputs::Input;

/// The contents of `samples/oracle.bin`.
pub fn oracle_bin() -> Vec<u8> {
    let chosen = chosen();
    write(chosen.iter().map(|(input, room)| answered(input, *room)))
}

/// The contents of `samples/captures.bin`: every input of every published
/// capture, by file name and frame; each second one has a larger buffer.
pub fn captures_bin() -> io::Result<Vec<u8>> {
    let files = captures::published()?;
    let inputs = files.iter().flat_map(|(_, file)| captures::inputs(file));
    let rooms = [Room::Exact, Room::Larger(32)].into_iter().cycle();
    Ok(write(inputs.zip(rooms).map(|(i, room)| answered(&i, room))))
}

/// The input with its buffer's length and the oracle's answer.
pub fn answered(input: &Input, room: Room) -> Sample {
    let outcome = input.call().run();
    let room = room.of(outcome.answer(usize::MAX).length as usize);
    let answer = outcome.answer(room);
    let mut strip = vec![0; room];
    outcome.lend(&mut strip);
    strip.truncate(if answer.number == 0 {
        answer.length as usize
    } else {
        0
    });
    Sample {
        version: input.version,
        walk: input.walk,
        count: input.count,
        offset: input.offset,
        room: room as u32,
        data: input.data.clone(),
        answer,
        strip,
    }
}
