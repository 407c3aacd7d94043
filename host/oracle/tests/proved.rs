//! The worked examples that crates/format proves of its definitions are what
//! the reference says: bytes and entries are read from the files Layouts2.antt,
//! Layouts3.antt and Listings.antt of its proofs.
//!
//! For a new example write a row with its bytes there and no entries: the test
//! fails, and prints the entries.

use std::collections::{BTreeSet, HashMap};
use std::fs;
use std::path::Path;

use oracle::{Call, Outcome, Walk};

/// Definitions of lists, and of entries before others: the parameters, of which
/// the last is the list's rest, and the words.
type Definitions = HashMap<String, (Vec<String>, Vec<String>)>;

/// A file without its comments.
fn text(name: &str) -> String {
    let proofs = Path::new(env!("CARGO_MANIFEST_DIR")).join("../../crates/format/proofs");
    let text = fs::read_to_string(proofs.join(name)).expect(name);
    let lines = text.lines().filter(|l| !l.trim_start().starts_with("--"));
    let lines = lines.map(|l| l.split_once("  -- ").map_or(l, |(code, _)| code));
    lines.map(|l| format!("{l}\n")).collect()
}

/// The words of a text. A quotation is one word; brackets and `∷` are none.
fn words(text: &str) -> Vec<String> {
    let mut words = Vec::new();
    for (i, part) in text.split('"').enumerate() {
        if i % 2 == 1 {
            words.push(part.to_string());
        } else {
            let plain = part.replace(['(', ')', '∷'], " ");
            words.extend(plain.split_whitespace().map(String::from));
        }
    }
    words
}

/// The definitions of a file, after those that all the tables share.
fn definitions(text: &str) -> Definitions {
    let shared = self::text("Fields.antt");
    let blocks = shared.split("\n\n").chain(text.split("\n\n"));
    let blocks = blocks.filter_map(|block| {
        let definition = block.trim_start().strip_prefix("abbrev pub ")?;
        let (name, definition) = definition.split_once(" : ")?;
        let (kind, clause) = definition.split_once('\n')?;
        let list = !kind.contains('→') || kind.ends_with("List Entry → List Entry");
        let (head, body) = clause.split_once('=').filter(|_| list)?;
        Some((name.to_string(), (words(head).split_off(1), words(body))))
    });
    blocks.collect()
}

/// The words with each definition in its place.
fn expanded(words: &[String], definitions: &Definitions) -> Vec<String> {
    let mut out = Vec::new();
    let mut rest = words.iter();
    while let Some(word) = rest.next() {
        let Some((parameters, body)) = definitions.get(word) else {
            out.push(word.clone());
            continue;
        };
        let tail = parameters.last();
        let arguments: HashMap<_, _> = parameters
            .iter()
            .filter(|p| Some(*p) != tail)
            .zip(rest.by_ref())
            .collect();
        let body = body.iter().filter(|w| Some(*w) != tail);
        out.extend(body.map(|w| (*arguments.get(w).unwrap_or(&w)).clone()));
    }
    out
}

/// The fields of the file's last record that state what a word comes to, each with its name.
fn statements(file: &str, of: &[&str]) -> Vec<(String, Vec<String>)> {
    let text = text(file);
    let definitions = definitions(&text);
    let record = text
        .rsplit("\n\n")
        .find(|b| b.trim_start().starts_with("pub record"));
    let fields = record.expect("a record").split("\n  pub ").skip(1);
    let fields = fields.filter_map(|field| {
        let (name, statement) = field.split_once(" : ")?;
        let statement = words(statement);
        let stated = of.contains(&statement[0].as_str());
        stated.then(|| (name.to_string(), expanded(&statement, &definitions)))
    });
    fields.collect()
}

/// The words of a file's table.
fn table(file: &str, name: &str) -> Vec<String> {
    let definitions = definitions(&text(file));
    expanded(&definitions[name].1, &definitions)
}

/// The rows of a table of LSAs as statements. A row has the LS type, the length
/// of the body, the bytes that are not counted, the body's entries, and how many
/// bytes are left; that of an opaque LSA an opaque type and a Link State ID
/// after the LS type, all bytes counted, and nothing left.
fn layouts(version: u8, file: &str) -> Vec<Vec<String>> {
    let definitions = definitions(&text(file));
    let mut rest = table(file, "bodies");
    let mut rows = Vec::new();
    while rest[0] != "[]" {
        let opaque = rest.remove(0) == "opaque";
        let ls_type = number(&rest.remove(0));
        let (mut but, mut entries) = if opaque {
            let (opaque_type, id) = (rest.remove(0), rest.remove(0));
            let header = format!("header2 {ls_type} {id}");
            let parts = format!("u8 8 1004 1005 {opaque_type} u32 9 1005 1008 0x060708");
            (
                format!("but 3 {ls_type} but 4 {opaque_type}"),
                format!("{header} {parts}"),
            )
        } else if version == 2 {
            (
                format!("but 3 {ls_type}"),
                format!("header2 {ls_type} 0x05060708"),
            )
        } else {
            (
                format!("but 2 {} but 3 {}", ls_type >> 8, ls_type & 0xff),
                format!("header3 {ls_type}"),
            )
        };
        let length = 20 + number(&rest.remove(0));
        if !opaque {
            but = format!("{but} {}", until(&mut rest, "[]").join(" "));
        }
        entries = format!("{entries} {}", until(&mut rest, "[]").join(" "));
        let left = if opaque { "0".into() } else { rest.remove(0) };
        let row = format!(
            "lsa_of {version} counted {length} {but} [] 1000 ≡ accepted {entries} [] 1 {left}"
        );
        rows.push(expanded(&words(&row), &definitions));
    }
    rows
}

fn number(word: &str) -> u64 {
    let parsed = match word.strip_prefix("0x") {
        Some(digits) => u64::from_str_radix(digits, 16),
        None => word.parse(),
    };
    parsed.unwrap_or_else(|_| panic!("no number: {word}"))
}

/// The words before a mark, taken off together with it.
fn until(words: &mut Vec<String>, mark: &str) -> Vec<String> {
    let at = words.iter().position(|w| w == mark).expect(mark);
    let taken = words.drain(..=at).take(at);
    taken.collect()
}

fn numbers(words: &[String]) -> Vec<u64> {
    words.iter().map(|w| number(w)).collect()
}

/// Bytes as they are written, and after them those that are counted: each one
/// more than its place, but for some.
fn bytes(words: &[String]) -> Vec<u8> {
    let byte = |w: &String| u8::try_from(number(w)).expect("a byte");
    let Some(at) = words.iter().position(|w| w == "counted") else {
        return words.iter().map(byte).collect();
    };
    let mut counted: Vec<u8> = (1..=byte(&words[at + 1])).collect();
    for but in words[at + 2..].chunks(3) {
        counted[number(&but[1]) as usize] = byte(&but[2]);
    }
    words[..at].iter().map(byte).chain(counted).collect()
}

/// The definitions' name of a kind, and the widths of the numbers in its body. An
/// IPv6 address is two numbers.
fn kind_of(kind: u8) -> (&'static str, Vec<usize>) {
    let (word, body) = listing::kind(kind).expect("a kind");
    let widths = match body {
        0 => vec![],
        9 => vec![1, 4, 4],
        25 => vec![1, 4, 4, 8, 8],
        n => vec![1, 4, 4, n - 9],
    };
    let name = match word {
        "open" => "opens",
        "close" => "closes",
        "never" => "unreachable",
        same => same,
    };
    (name, widths)
}

/// The strip of a row of entries, by the requirements' table.
fn strip(entries: &[String]) -> Vec<u8> {
    let mut strip = Vec::new();
    let mut rest = entries.iter();
    while let Some(word) = rest.next() {
        let mut kinds = listing::KINDS.iter().map(|row| row.0);
        let kind = kinds.find(|&kind| kind_of(kind).0 == word);
        let kind = kind.unwrap_or_else(|| panic!("no kind: {word}"));
        strip.push(kind);
        for width in kind_of(kind).1 {
            let value = number(rest.next().expect("a value"));
            strip.extend(&value.to_be_bytes()[8 - width..]);
        }
    }
    strip
}

/// A strip's entries, as they are written in the files.
fn written(strip: &[u8]) -> String {
    let mut out = String::new();
    let mut at = 0;
    while at < strip.len() {
        let (name, widths) = kind_of(strip[at]);
        at += 1;
        out += name;
        for (i, width) in widths.into_iter().enumerate() {
            let value = strip[at..at + width]
                .iter()
                .fold(0, |n, &b| n << 8 | u64::from(b));
            out += &if i < 3 || name == "opens" {
                format!(" {value}")
            } else {
                format!(" {value:#x}")
            };
            at += width;
        }
        out += " ∷\n";
    }
    out
}

/// Compares a walk's statement with the reference; the version and the LSA's bytes.
fn compare(name: &str, mut statement: Vec<String>) -> (u8, Vec<u8>) {
    let walk = match statement.remove(0).as_str() {
        "headers_of" => Walk::Headers,
        "update_of" => Walk::Update,
        _ => Walk::Lsa,
    };
    let version = number(&statement.remove(0)) as u8;
    let data = bytes(&until(&mut statement, "[]"));
    let mut arguments = numbers(&until(&mut statement, "≡"));
    let offset = arguments.pop().expect("an offset");
    let count = arguments.pop().unwrap_or(0) as u32;
    assert_eq!(statement.remove(0), "accepted", "{name}");
    let stated = strip(&until(&mut statement, "[]"));
    let call = Call {
        version,
        walk,
        data: &data,
        count,
        offset,
    };
    let Outcome::Accepted {
        strip,
        records,
        tail,
        ..
    } = call.run()
    else {
        panic!("{name} is refused");
    };
    assert!(
        stated == strip,
        "{name}: the reference pushes\n{}",
        written(&strip)
    );
    assert_eq!(
        numbers(&statement),
        [u64::from(records), u64::from(tail)],
        "{name}"
    );
    (version, data)
}

#[test]
fn an_lsa_of_each_layout() {
    let mut seen = BTreeSet::new();
    for (version, file) in [(2, "Layouts2.antt"), (3, "Layouts3.antt")] {
        for (i, statement) in layouts(version, file).into_iter().enumerate() {
            let (version, lsa) = compare(&format!("{file}, row {i}"), statement);
            let function = u16::from_be_bytes([lsa[2], lsa[3]]) & 0x1fff;
            seen.insert(if version == 2 {
                (2, lsa[3].into())
            } else {
                (3, function)
            });
        }
    }
    let layouts = (1..=11)
        .map(|t| (2, t))
        .chain((1..=9).chain([12]).chain(33..=42).map(|f| (3, f)));
    assert_eq!(seen, layouts.collect());
}

#[test]
fn walks_at_an_offset() {
    let walks = statements("Listings.antt", &["headers_of", "update_of"]);
    assert_eq!(walks.len(), 3);
    for (name, statement) in walks {
        compare(&name, statement);
    }
}

/// The print follows the requirements, and what it says is the reference's.
#[test]
fn listings() {
    let table = table("Listings.antt", "printing");
    let rows = table.split(|w| w == "prints").skip(1);
    let accepted = rows.filter(|row| !row.iter().any(|w| w.starts_with("refused")));
    let accepted: Vec<_> = accepted.collect();
    assert_eq!(accepted.len(), 4);
    for row in accepted {
        let mut row = row.to_vec();
        let input = bytes(&until(&mut row, "[]"));
        let lines = until(&mut row, "[]");
        let data = &input[2..];
        let call = Call {
            version: input[0],
            walk: [Walk::Headers, Walk::Update, Walk::Lsa][usize::from(input[1])],
            data,
            count: data
                .first_chunk()
                .map_or(0, |bytes| u32::from_be_bytes(*bytes)),
            offset: 0,
        };
        let Outcome::Accepted {
            strip,
            records,
            tail,
            ..
        } = call.run()
        else {
            panic!("{} is refused", lines[0]);
        };
        assert_eq!(lines[0], format!("ok {records} {tail} {}", strip.len()));
        assert_eq!(
            listing::strip(&lines[1..].join("\n")),
            strip,
            "{}",
            lines[0]
        );
    }
}
