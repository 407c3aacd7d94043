//! Prints the fields of an input with their names: `fields FILE`.
//!
//! The file holds the OSPF version (2 or 3), the walk (0 a list of LSA
//! headers, 1 the body of a Link State Update, 2 a single LSA) or the block
//! (3 an LLS data block, 4 an authentication trailer; then the version is not
//! looked at), and the data. Beside the LS checksum of a whole LSA stands
//! whether it is right, beside a container how many entries are directly inside;
//! a metric that says unreachable prints `unreachable` for a value. A block that
//! is not there prints `absent`.

use std::env;
use std::fs;
use std::process::ExitCode;

use ospf_strip::{Block, Buffer, Entry, Kind, Refusal, Strip, Version, checksum_is_good};

/// The most bytes of input, as of the program `dissect`.
const MAX_INPUT: usize = 2_050;

fn main() -> ExitCode {
    let Some(path) = env::args().nth(1) else {
        eprintln!(
            "usage: fields FILE, of a version, a walk (0 to 2) or a block (3 or 4), and data"
        );
        return ExitCode::from(2);
    };
    let input = match fs::read(&path) {
        Ok(input) => input,
        Err(error) => {
            eprintln!("{path}: {error}");
            return ExitCode::FAILURE;
        }
    };
    if input.is_empty() {
        eprintln!("{path}: empty, with no byte for the version and the walk");
        return ExitCode::FAILURE;
    }
    match run(&mut Buffer::new(), &input) {
        Ok(Some(strip)) => print(strip, &input),
        Ok(None) => println!("absent"),
        // The length needed is 0: the buffer grows to what a walk needs.
        Err(number) => println!("refused {number} 0"),
    }
    ExitCode::SUCCESS
}

/// The strip of an input, none of a block that is absent, or the number of its
/// refusal; of the walks as the program `dissect` gives them.
fn run<'a>(buffer: &'a mut Buffer, input: &[u8]) -> Result<Option<Strip<'a>>, u8> {
    if input.len() > MAX_INPUT {
        return Err(2);
    }
    let [version, walk, data @ ..] = input else {
        return Err(4);
    };
    let strip_of = |block: Option<Block<'a>>| block.map(|block| block.strip());
    let strip = match walk {
        0..=2 => walked(buffer, *version, *walk, data).map(Some),
        3 => buffer.lls(data, 0).map(strip_of),
        4 => buffer.auth_trailer(data, 0).map(strip_of),
        _ => return Err(12),
    };
    strip.map_err(Refusal::number)
}

/// The strip of a walk.
fn walked<'a>(
    buffer: &'a mut Buffer,
    version: u8,
    walk: u8,
    data: &[u8],
) -> Result<Strip<'a>, Refusal> {
    let version = Version::try_from(version)?;
    match walk {
        0 => buffer.lsa_headers(version, data, 0),
        1 => {
            // An update's body begins with its number of LSAs.
            let count = data.first_chunk().map_or(0, |b| u32::from_be_bytes(*b));
            buffer.lsu_lsas(version, data, count, 0)
        }
        _ => buffer.lsa(version, data, 0),
    }
}

/// A line an entry: name, byte range, value or count; indented by its containers.
fn print(strip: Strip, input: &[u8]) {
    let data = input.get(2..).unwrap_or_default();
    // The LSA that is being printed, if it is a whole one; a single LSA is all the data.
    let mut lsa = (input.get(1) == Some(&2)).then_some(data);
    let mut depth = 0;
    for entry in strip {
        if entry.kind() == Kind::Close {
            depth -= 1;
            continue;
        }
        if entry.name() == Some("lsa") {
            lsa = entry.part(data, 0).ok();
        }
        println!("{:1$}{2}", "", 2 * depth, line(&entry, lsa));
        if entry.kind() == Kind::Open {
            depth += 1;
        }
    }
}

fn line(entry: &Entry, lsa: Option<&[u8]>) -> String {
    let name = entry.name().unwrap_or("?");
    let range = entry.range().unwrap_or_default();
    let value = match entry.value() {
        Some(value) => format!(" = {value}"),
        None if entry.is_unreachable() => " = unreachable".to_string(),
        None => entry
            .count()
            .map_or(String::new(), |count| format!(", {count} inside")),
    };
    let lsa = lsa.filter(|_| name == "ls_checksum");
    let checked = match lsa.map(checksum_is_good) {
        Some(Ok(true)) => ", good",
        Some(Ok(false)) => ", bad",
        _ => "",
    };
    format!("{name} [{}..{}]{value}{checked}", range.start, range.end)
}
