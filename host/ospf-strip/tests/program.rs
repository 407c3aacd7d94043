//! The program `target/bin/dissect`, which prints through the proved reader of strips: its text is that of the reference's
//! answer and of this crate's iterator, on the captures and on generated inputs.

mod lines;
mod walk;

use inputs::{Class, Input};
use lines::line;
use oracle::{Outcome, Walk};
use ospf_strip::Buffer;
use std::fs;
use std::io::{ErrorKind, Write};
use std::path::Path;
use std::process::{Command, Stdio};
use walk::run;

/// The room of the program's strip buffer, and the most data that fit into its input.
const ROOM: usize = 65_536;
const MOST: usize = 2_048;

/// What the program prints.
fn printed(input: &[u8]) -> String {
    let program = Path::new(env!("CARGO_MANIFEST_DIR")).join("../../target/bin/dissect");
    let mut child = Command::new(program)
        .stdin(Stdio::piped())
        .stdout(Stdio::piped())
        .spawn()
        .expect("`tools/build dissect` builds the program");
    let mut stdin = child.stdin.take().unwrap();
    // It reads no more than it needs to refuse.
    if let Err(error) = stdin.write_all(input) {
        assert_eq!(error.kind(), ErrorKind::BrokenPipe);
    }
    drop(stdin);
    let output = child.wait_with_output().unwrap();
    assert!(output.status.success());
    String::from_utf8(output.stdout).unwrap()
}

/// What it should print: the first line by the reference, the others by the iterator.
fn expected(input: &Input) -> String {
    let count = match (input.walk, input.data.first_chunk()) {
        (Walk::Update, Some(bytes)) => u32::from_be_bytes(*bytes),
        _ => 0,
    };
    let input = Input {
        count,
        offset: 0,
        ..input.clone()
    };
    let answer = input.call().run().answer(ROOM);
    if answer.number != 0 {
        return format!("refused {} {}\n", answer.number, answer.length);
    }
    let mut text = format!("ok {} {} {}\n", answer.records, answer.tail, answer.length);
    for entry in run(&mut Buffer::new(), &input).unwrap() {
        text += &line(&entry);
        text += "\n";
    }
    text
}

fn compare(input: &Input) {
    let mut bytes = vec![input.version, input.walk as u8];
    bytes.extend_from_slice(&input.data);
    assert_eq!(printed(&bytes), expected(input), "{bytes:02x?}");
}

#[test]
fn captures_are_printed() {
    let mut compared = 0;
    for (_, file) in captures::published().unwrap() {
        for input in captures::inputs(&file) {
            if input.data.len() <= MOST {
                compare(&input);
                compared += 1;
            }
        }
    }
    assert!(compared > 400, "{compared}");
}

#[test]
fn generated_inputs_are_printed() {
    let mut compared = 0;
    for class in [Class::Structured, Class::Damaged, Class::Random] {
        inputs::of_class(class, 5, 4, &mut |input| {
            if input.data.len() <= MOST {
                compare(&input);
                compared += 1;
            }
        });
    }
    assert!(compared > 200, "{compared}");
}

/// Beside each example stands what is printed for it; a block's is an input of `./fields` (commands.rs).
#[test]
fn examples_are_printed() {
    let directory = Path::new(env!("CARGO_MANIFEST_DIR")).join("../../examples");
    let mut compared = 0;
    for file in fs::read_dir(directory).unwrap() {
        let path = file.unwrap().path();
        if path.extension().is_some_and(|e| e == "bin") {
            let input = fs::read(&path).unwrap();
            if input[1] > 2 {
                assert_eq!(printed(&input), "refused 12 0\n", "{}", path.display());
                continue;
            }
            let text = fs::read_to_string(path.with_extension("txt")).unwrap();
            assert_eq!(printed(&input), text, "{}", path.display());
            compared += 1;
        }
    }
    assert!(compared >= 5, "{compared}");
}

/// The program's own refusals, and the largest input.
#[test]
fn edges_are_refused_by_number() {
    assert_eq!(printed(b""), "refused 4 0\n");
    assert_eq!(printed(b"\x02"), "refused 4 0\n");
    assert_eq!(printed(b"\x02\x03"), "refused 12 0\n");
    assert_eq!(printed(b"\x03\x04"), "refused 12 0\n");
    assert_eq!(printed(b"\x01\xff"), "refused 12 0\n");
    assert_eq!(printed(b"\x01\x02"), "refused 1 0\n");
    assert_eq!(printed(b"\x02\x01\x00\x00\x00"), "refused 4 0\n");
    assert_eq!(printed(b"\x03\x02"), "refused 4 0\n");
    assert_eq!(printed(b"\x02\x00"), "ok 0 0 15\nopen 114 0 0 0\nclose\n");
    let mut most = vec![2, 0];
    most.resize(MOST + 2, 0);
    let text = printed(&most);
    assert!(text.starts_with("ok 102 8 11755\n"), "{text}");
    assert_eq!(text.lines().count(), 1 + 2 + 102 * 10 + 1);
    most.push(0);
    assert_eq!(printed(&most), "refused 2 0\n");
    let too_many = vec![9; 70_000];
    assert_eq!(printed(&too_many), "refused 2 0\n");
}

/// The longest strip that an input gives: prefixes of no octet.
#[test]
fn longest_strip_is_printed() {
    let mut data = vec![0; MOST];
    data[2..4].copy_from_slice(&0x2009_u16.to_be_bytes());
    data[20..22].copy_from_slice(&u16::MAX.to_be_bytes());
    let input = Input {
        class: Class::Large,
        version: 3,
        walk: Walk::Lsa,
        data,
        count: 0,
        offset: 0,
    };
    let Outcome::Accepted { strip, .. } = input.call().run() else {
        panic!("refused");
    };
    assert!(strip.len() > 35_000, "{}", strip.len());
    compare(&input);
}
