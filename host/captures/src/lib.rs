//! Takes header lists, updates and single LSAs out of capture files, as
//! inputs for the walks. An input's offset is its place in the frame.

mod file;
mod packet;

use std::path::{Path, PathBuf};
use std::{fs, io};

pub use file::{Frame, frames};
use inputs::{Class, Input};
use oracle::Walk;
pub use packet::{Ospf, ospf};

/// A file's name and contents.
pub type Named = (String, Vec<u8>);

/// The published captures of `samples/captures`, by name.
pub fn published() -> io::Result<Vec<Named>> {
    let directory = Path::new(env!("CARGO_MANIFEST_DIR")).join("../../samples/captures");
    let entries = fs::read_dir(directory)?;
    let paths = entries.map(|entry| Ok(entry?.path()));
    let mut paths: Vec<PathBuf> = paths.collect::<io::Result<_>>()?;
    paths.retain(|path| {
        path.extension()
            .is_some_and(|e| e == "pcap" || e == "pcapng")
    });
    paths.sort();
    let named = paths.iter().map(|path| {
        let name = path.file_name().unwrap_or_default();
        Ok((name.to_string_lossy().into_owned(), fs::read(path)?))
    });
    named.collect()
}

/// All inputs of a capture file: for each frame its header list or update,
/// and after an update the LSAs it is cut into.
pub fn inputs(file: &[u8]) -> Vec<Input> {
    let frames = frames(file).unwrap_or_default();
    frames.iter().flat_map(of_frame).collect()
}

fn of_frame(frame: &Frame<'_>) -> Vec<Input> {
    let Some(ospf) = ospf(frame) else {
        return Vec::new();
    };
    let fixed = match (ospf.version, ospf.message) {
        // RFC 2328 A.3.3, RFC 5340 A.3.3: what stands before the headers.
        (2, 2) => 8,
        (3, 2) => 12,
        (_, 4 | 5) => 0,
        _ => return Vec::new(),
    };
    let Some(data) = ospf.body.get(fixed..) else {
        return Vec::new();
    };
    let walk = if ospf.message == 4 {
        Walk::Update
    } else {
        Walk::Headers
    };
    let count = match (walk, data.first_chunk()) {
        (Walk::Update, Some(&bytes)) => u32::from_be_bytes(bytes),
        _ => 0,
    };
    let whole = Input {
        class: Class::Captured,
        version: ospf.version,
        walk,
        data: data.to_vec(),
        count,
        offset: (ospf.place + fixed) as u64,
    };
    let lsas = if walk == Walk::Update {
        cut(&whole)
    } else {
        Vec::new()
    };
    std::iter::once(whole).chain(lsas).collect()
}

/// The LSAs of an update, by their declared lengths (the requirements, the cut).
fn cut(update: &Input) -> Vec<Input> {
    let mut lsas = Vec::new();
    let mut at = 4;
    for _ in 0..update.count {
        let Some(&[.., high, low]) = update.data.get(at..).and_then(|d| d.first_chunk::<20>())
        else {
            break;
        };
        let length = u16::from_be_bytes([high, low]) as usize;
        let Some(data) = update.data.get(at..at + length) else {
            break;
        };
        if length < 20 {
            break;
        }
        lsas.push(Input {
            walk: Walk::Lsa,
            data: data.to_vec(),
            count: 0,
            offset: update.offset + at as u64,
            ..*update
        });
        at += length;
    }
    lsas
}
