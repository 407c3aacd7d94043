//! Takes inputs one after another against a book and prints its rows: `book
//! FILE..`.
//!
//! Each file holds the OSPF version (2 or 3), a 1 (the walk of a Link State
//! Update), and the update's body. For each input stands a line with how many
//! rows it replaced and added, or why it was refused; a refused input changes no
//! row. Then stands a line for each row, in the order in which they were added,
//! with the number of the input that changed it last.

use std::env;
use std::fs;
use std::net::Ipv4Addr;
use std::process::ExitCode;

use ospf_strip::{Book, Counts, Refusal, Row, Version};

/// The most bytes of input, as of the program `dissect`.
const MAX_INPUT: usize = 2_050;

/// The walk of an update.
const UPDATE: u8 = 1;

fn main() -> ExitCode {
    let paths: Vec<String> = env::args().skip(1).collect();
    if paths.is_empty() {
        eprintln!("usage: book FILE.., each of a version, 1 for an update, and the update's body");
        return ExitCode::from(2);
    }
    let mut inputs = Vec::new();
    for path in &paths {
        match fs::read(path) {
            Ok(input) => inputs.push(input),
            Err(error) => {
                eprintln!("{path}: {error}");
                return ExitCode::FAILURE;
            }
        }
    }
    let mut book = Book::new();
    // For each row, the number of the input that changed it last.
    let mut changed = Vec::new();
    for (number, input) in (1..).zip(&inputs) {
        let before = book.rows().to_vec();
        match run(&mut book, input) {
            Ok(counts) => println!(
                "input {number}: {} replaced, {} added",
                counts.replaced, counts.added
            ),
            Err(refused) => println!("input {number}: refused {refused}"),
        }
        changed.resize(book.rows().len(), 0);
        // A row that is replaced is by a newer instance, which differs.
        for (place, row) in book.rows().iter().enumerate() {
            if before.get(place) != Some(row) {
                changed[place] = number;
            }
        }
    }
    print(&book, &changed);
    ExitCode::SUCCESS
}

/// Takes an input, or gives the number of its refusal, as the program `dissect`
/// has them: 12 of one that is no update.
fn run(book: &mut Book, input: &[u8]) -> Result<Counts, u8> {
    if input.len() > MAX_INPUT {
        return Err(2);
    }
    let [version, walk, data @ ..] = input else {
        return Err(4);
    };
    if *walk != UPDATE {
        return Err(12);
    }
    let version = Version::try_from(*version).map_err(Refusal::number)?;
    // An update's body begins with its number of LSAs.
    let count = data.first_chunk().map_or(0, |b| u32::from_be_bytes(*b));
    let taken = book.take_update(version, data, count, 0);
    taken.map_err(Refusal::number)
}

/// A line for each used row.
fn print(book: &Book, changed: &[u32]) {
    line([
        "version", "type", "id", "router", "sequence", "checksum", "age", "input",
    ]);
    let rows = book.rows().iter().zip(changed);
    for (row, number) in rows.filter(|(row, _)| row.is_used()) {
        let cells = cells(row, *number);
        line(cells.each_ref().map(String::as_str));
    }
}

/// In version 2 an id is most often an address, in version 3 a number (RFC 5340
/// A.4.2), whose LS type has its scope in the upper bits.
fn cells(row: &Row, number: u32) -> [String; 8] {
    let (ls_type, id) = if row.version == 2 {
        (row.ls_type.to_string(), address(row.link_state_id))
    } else {
        let ls_type = format!("{:#06X}", row.ls_type);
        (ls_type, row.link_state_id.to_string())
    };
    [
        row.version.to_string(),
        ls_type,
        id,
        address(row.advertising_router),
        format!("{:#010X}", row.sequence),
        format!("{:#06X}", row.checksum),
        row.age.to_string(),
        number.to_string(),
    ]
}

fn address(number: u32) -> String {
    Ipv4Addr::from_bits(number).to_string()
}

/// The cells of a row under their heads.
fn line(
    [
        version,
        ls_type,
        id,
        router,
        sequence,
        checksum,
        age,
        number,
    ]: [&str; 8],
) {
    println!(
        "{version:<8} {ls_type:<6} {id:<15} {router:<15} {sequence:<10} {checksum:<8} {age:>4} {number:>5}"
    );
}
