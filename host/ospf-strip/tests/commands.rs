//! The commands `./dissect` and `./fields`: what they take as input, that they agree on what is refused of the walks, and
//! the blocks, which `./fields` takes alone; and `./book`, which takes updates, and as many as it is given.

use std::fs;
use std::os::unix::fs::symlink;
use std::path::{Path, PathBuf};
use std::process::{Command, Output, Stdio};
use std::sync::Once;

const COMMANDS: [&str; 2] = ["dissect", "fields"];

/// What the second byte of an input may be, in the words of each command.
const NUMBERS: [&str; 2] = [
    "0 headers, 1 update or 2 single LSA",
    "0 headers, 1 update, 2 single LSA, 3 LLS data block or 4 authentication trailer",
];

fn top() -> PathBuf {
    Path::new(env!("CARGO_MANIFEST_DIR")).join("../..")
}

fn run(command: &str, words: &[&str], stdin: Stdio) -> Output {
    Command::new(top().join(command))
        .args(words)
        .current_dir(top())
        .stdin(stdin)
        .output()
        .unwrap()
}

/// Has all commands build what they need, once, so that no two tests do so at a time.
fn built() {
    static BUILT: Once = Once::new();
    BUILT.call_once(|| {
        for command in COMMANDS.into_iter().chain(["book"]) {
            let output = run(command, &["examples/headers-v2.bin"], Stdio::null());
            assert!(output.status.success(), "{output:?}");
        }
    });
}

/// A file of these bytes, of a name that no other test has.
fn file(name: &str, bytes: &[u8]) -> String {
    let path = Path::new(env!("CARGO_TARGET_TMPDIR")).join(name);
    fs::write(&path, bytes).unwrap();
    path.into_os_string().into_string().unwrap()
}

fn text(bytes: Vec<u8>) -> String {
    String::from_utf8(bytes).unwrap()
}

/// What a command prints for an input that it takes.
fn printed(command: &str, words: &[&str], stdin: Stdio) -> String {
    let output = run(command, words, stdin);
    assert!(output.status.success(), "{command}: {output:?}");
    assert_eq!(text(output.stderr), "", "{command}");
    text(output.stdout)
}

/// Asserts that both commands end with this status, print nothing, and say this on one line of standard error.
fn fail(words: &[&str], stdin: impl Fn() -> Stdio, status: i32, says: &str) {
    for (command, numbers) in COMMANDS.into_iter().zip(NUMBERS) {
        let output = run(command, words, stdin());
        assert_eq!(output.status.code(), Some(status), "{command}: {output:?}");
        assert_eq!(text(output.stdout), "");
        let line = says.replace("COMMAND", &format!("./{command}"));
        let line = line.replace("NUMBERS", numbers);
        assert_eq!(text(output.stderr), format!("{line}\n"));
    }
}

#[test]
fn one_file_is_asked_for() {
    let usage = "usage: COMMAND FILE, or COMMAND - for standard input; its second byte is NUMBERS";
    fail(&[], Stdio::null, 2, usage);
    let two = ["examples/headers-v2.bin", "examples/update-v2.bin"];
    fail(&two, Stdio::null, 2, usage);
}

#[test]
fn file_that_cannot_be_read_is_named() {
    let missing = "COMMAND: examples/none.bin: no such file";
    fail(&["examples/none.bin"], Stdio::null, 1, missing);
    let directory = "COMMAND: examples: a directory, not a file";
    fail(&["examples"], Stdio::null, 1, directory);
}

#[test]
fn empty_input_is_an_error() {
    let empty = file("commands-empty", b"");
    let says = "empty, with no byte for the version and the walk";
    let line = format!("COMMAND: {empty}: {says}");
    fail(&[&empty], Stdio::null, 1, &line);
    let line = format!("COMMAND: standard input: {says}");
    fail(&["-"], Stdio::null, 1, &line);
}

#[test]
fn standard_input_is_read() {
    built();
    for command in COMMANDS {
        let path = "examples/update-v3.bin";
        let by_name = printed(command, &[path], Stdio::null());
        assert!(by_name.lines().count() > 10, "{by_name}");
        let open = || Stdio::from(fs::File::open(top().join(path)).unwrap());
        assert_eq!(printed(command, &["-"], open()), by_name);
        assert_eq!(printed(command, &["/dev/stdin"], open()), by_name);
    }
}

/// Inputs, and the number of the refusal if there is one.
#[test]
fn refusals_agree() {
    built();
    let lsa = |version, walk| [vec![version, walk], vec![0; 20]].concat();
    let cases = [
        (vec![2], Some(4)),
        (lsa(2, 2), None),
        (lsa(2, 5), Some(12)),
        (lsa(3, 255), Some(12)),
        (lsa(1, 5), Some(12)),
        (lsa(0, 0), Some(1)),
        (lsa(4, 2), Some(1)),
        (vec![2, 1, 0, 0, 0], Some(4)),
        (vec![3, 2], Some(4)),
        (vec![2, 0], None),
        ([vec![2, 0], vec![0; 2048]].concat(), None),
        ([vec![2, 0], vec![0; 2049]].concat(), Some(2)),
        (vec![9; 70_000], Some(2)),
    ];
    for (input, number) in cases {
        let path = file("commands-refused", &input);
        let start = &input[..input.len().min(4)];
        for command in COMMANDS {
            let text = printed(command, &[&path], Stdio::null());
            match number {
                Some(n) => assert_eq!(text, format!("refused {n} 0\n"), "{command} {start:?}"),
                None => assert!(!text.starts_with("refused"), "{command} {start:?}: {text}"),
            }
        }
    }
}

/// The blocks are inputs of `./fields` alone, with any version byte.
#[test]
fn blocks() {
    built();
    let mut lls = fs::read(top().join("examples/lls.bin")).unwrap();
    let found = "lls [0..12], 3 inside\n  checksum [0..2] = 65526\n  lls_data_length [2..4] = 3\n  tlvs [4..12]\n";
    let most = |walk| [vec![2, walk], vec![0; 2048]].concat();
    let mut cases = vec![
        (vec![9, 3], "absent\n"),
        (vec![9, 4], "absent\n"),
        (lls[..13].to_vec(), "absent\n"),
        (most(3), "absent\n"),
        ([most(4), vec![0]].concat(), "refused 2 0\n"),
        ([lls.clone(), vec![7; 3]].concat(), found),
    ];
    for version in [0, 2, 3, 255] {
        lls[0] = version;
        cases.push((lls.clone(), found));
    }
    for (input, text) in cases {
        let path = file("commands-block", &input);
        assert_eq!(
            printed("fields", &[&path], Stdio::null()),
            text,
            "{input:?}"
        );
        let refused = if input.len() > 2_050 { 2 } else { 12 };
        let dissected = printed("dissect", &[&path], Stdio::null());
        assert_eq!(dissected, format!("refused {refused} 0\n"), "{input:?}");
    }
}

/// Beside each example of a block stands what `./fields` prints; beside the others, what `./dissect` does (program.rs).
/// README.md shows one.
#[test]
fn examples_of_blocks() {
    built();
    let files = fs::read_dir(top().join("examples")).unwrap();
    let inputs = files.map(|file| file.unwrap().path());
    let inputs = inputs.filter(|path| path.extension().is_some_and(|e| e == "bin"));
    let blocks: Vec<_> = inputs
        .filter(|path| fs::read(path).unwrap()[1] > 2)
        .collect();
    assert_eq!(blocks.len(), 2, "{blocks:?}");
    for path in blocks {
        let text = fs::read_to_string(path.with_extension("txt")).unwrap();
        let path = path.to_str().unwrap();
        assert_eq!(printed("fields", &[path], Stdio::null()), text, "{path}");
    }
    let shown = fs::read_to_string(top().join("examples/lls.txt")).unwrap();
    let readme = fs::read_to_string(top().join("README.md")).unwrap();
    assert!(readme.contains(&format!("```text\n{shown}```")), "{shown}");
}

/// A metric that says unreachable prints so, as itself and in the TOS list, beside one that is a cost.
#[test]
fn unreachable_metrics() {
    built();
    let text = printed("fields", &["examples/unreachable.bin"], Stdio::null());
    let (header, body) = text.split_at(text.find("network_mask").expect("the body"));
    assert_eq!(header.lines().count(), 8, "{header}");
    let expected = "\
network_mask [20..24] = 255.255.0.0
metric [25..28] = unreachable
tos_metrics [28..36], 2 inside
  tos_metric [28..32], 2 inside
    tos [28..29] = 8
    metric [29..32] = 10
  tos_metric [32..36], 2 inside
    tos [32..33] = 16
    metric [33..36] = unreachable
";
    assert_eq!(body, expected);
    // README.md shows a line of each command.
    let readme = fs::read_to_string(top().join("README.md")).unwrap();
    let listing = fs::read_to_string(top().join("examples/unreachable.txt")).unwrap();
    for (text, line) in [
        (text, "metric [25..28] = unreachable"),
        (listing, "never 19 25 28"),
    ] {
        assert!(text.lines().any(|l| l == line), "{text}");
        assert!(readme.contains(&format!("`{line}`")), "{line}");
    }
}

/// Beside the LS checksum of a whole LSA stands whether it is right; of a header alone nothing is said.
#[test]
fn checksums_are_checked() {
    built();
    let checksums = |path: &str| {
        let text = printed("fields", &[path], Stdio::null());
        let lines = text.lines().map(str::trim_start);
        let lines = lines.filter(|line| line.starts_with("ls_checksum "));
        lines.map(str::to_string).collect::<Vec<_>>()
    };
    let update = fs::read(top().join("examples/update-v2.bin")).unwrap();
    let good = checksums("examples/update-v2.bin");
    assert_eq!(good.len(), 7);
    assert_eq!(good[0], "ls_checksum [20..22] = 15004, good");
    assert!(good.iter().all(|line| line.ends_with(", good")), "{good:?}");
    // The first LSA takes the bytes 4 to 52 of the data, two after the input's front.
    let mut damaged = update.clone();
    damaged[6 + 47] += 1;
    let found = checksums(&file("commands-damaged", &damaged));
    assert_eq!(found[0], "ls_checksum [20..22] = 15004, bad");
    assert_eq!(found[1..], good[1..]);
    let single = [&[2, 2], &update[6..54]].concat();
    let found = checksums(&file("commands-single", &single));
    assert_eq!(found, ["ls_checksum [16..18] = 15004, good"]);
    let longer = [&single[..], &[1]].concat();
    let found = checksums(&file("commands-longer", &longer));
    assert_eq!(found, ["ls_checksum [16..18] = 15004, bad"]);
    assert_eq!(
        checksums("examples/header-and-byte.bin"),
        ["ls_checksum [16..18] = 4660"]
    );
}

/// An error is found before anything is built: here there is nothing to build with.
#[test]
fn errors_come_before_the_build() {
    let copy = Path::new(env!("CARGO_TARGET_TMPDIR")).join("commands-unbuilt");
    if copy.exists() {
        fs::remove_dir_all(&copy).unwrap();
    }
    fs::create_dir_all(copy.join("tools")).unwrap();
    for name in ["dissect", "fields", "book", "tools/input"] {
        symlink(top().join(name), copy.join(name)).unwrap();
    }
    let empty = file("commands-unbuilt-empty", b"");
    for command in COMMANDS.into_iter().chain(["book"]) {
        for word in ["none", ".", &empty, "-"] {
            let output = Command::new("sh")
                .arg(copy.join(command))
                .arg(word)
                .current_dir(&copy)
                .stdin(Stdio::null())
                .output()
                .unwrap();
            assert_eq!(output.status.code(), Some(1), "{command} {word}");
            let line = text(output.stderr);
            assert!(line.starts_with(&format!("./{command}: ")), "{line}");
            assert_eq!(line.lines().count(), 1, "{line}");
        }
    }
}

/// README.md shows what `./book` prints of two examples, one of them refused.
#[test]
fn book_of_the_readme() {
    built();
    let words = ["examples/update-v3.bin", "examples/header-and-byte.bin"];
    let text = printed("book", &words, Stdio::null());
    let readme = fs::read_to_string(top().join("README.md")).unwrap();
    let shown = format!("`./book {}` prints:\n\n```text\n{text}```", words.join(" "));
    assert!(readme.contains(&shown), "{shown}");
}

/// What `./book` says of words that are no inputs.
#[test]
fn book_asks_for_files() {
    let empty = file("commands-book-empty", b"");
    let good = "examples/update-v2.bin";
    let usage = "usage: ./book FILE.., or - for standard input in place of one of them; \
        their second byte is 1 update";
    let cases = [
        (vec![], 2, usage.to_string()),
        (
            vec![good, "examples/none.bin"],
            1,
            "./book: examples/none.bin: no such file".to_string(),
        ),
        (
            vec!["examples", good],
            1,
            "./book: examples: a directory, not a file".to_string(),
        ),
        (
            vec![good, &empty],
            1,
            format!("./book: {empty}: empty, with no byte for the version and the walk"),
        ),
    ];
    for (words, status, says) in cases {
        let output = run("book", &words, Stdio::null());
        assert_eq!(output.status.code(), Some(status), "{output:?}");
        assert_eq!(text(output.stdout), "");
        assert_eq!(text(output.stderr), format!("{says}\n"));
    }
}

/// The first LSA of an update of version 2, alone, as another instance.
fn instance(sequence: u8, age: u16) -> Vec<u8> {
    let update = fs::read(top().join("examples/update-v2.bin")).unwrap();
    let mut lsa = update[6..54].to_vec();
    lsa[..2].copy_from_slice(&age.to_be_bytes());
    lsa[15] = sequence;
    [&[2, 1, 0, 0, 0, 1], &lsa[..]].concat()
}

const HEADS: &str = "version  type   id              router          sequence   checksum  age input
";

/// Updates of both versions, an instance that is newer and one that is older, and inputs that are refused.
#[test]
fn book_of_several_inputs() {
    built();
    let newer = file("commands-book-newer", &instance(3, 1));
    let older = file("commands-book-older", &instance(2, 1));
    let old = file("commands-book-old", &instance(4, 3_601));
    let words = [
        "examples/update-v2.bin",
        &newer,
        &older,
        "examples/update-v3.bin",
        &old,
        "examples/headers-v2.bin",
        "examples/update-v2.bin",
    ];
    let expected = "\
input 1: 0 replaced, 7 added
input 2: 1 replaced, 0 added
input 3: 0 replaced, 0 added
input 4: 0 replaced, 5 added
input 5: refused 11
input 6: refused 12
input 7: 0 replaced, 0 added
version  type   id              router          sequence   checksum  age input
2        1      192.168.170.3   192.168.170.3   0x80000003 0x3A9C      1     2
2        5      80.212.16.0     192.168.170.2   0x80000001 0x2A49      3     1
2        5      148.121.171.0   192.168.170.2   0x80000001 0x34A5      3     1
2        5      192.130.120.0   192.168.170.2   0x80000001 0xD319      3     1
2        5      192.168.0.0     192.168.170.2   0x80000001 0x3708      3     1
2        5      192.168.1.0     192.168.170.2   0x80000001 0x2C12      3     1
2        5      192.168.172.0   192.168.170.2   0x80000001 0x3341      3     1
3        0x2003 2               3.3.3.3         0x80000001 0xFCEC    115     4
3        0x2003 1               3.3.3.3         0x80000001 0x2E96    125     4
3        0x2003 0               3.3.3.3         0x80000001 0xC234    125     4
3        0x0008 6               3.3.3.3         0x80000001 0xA049    135     4
3        0x2009 0               3.3.3.3         0x80000001 0x0B7C    135     4
";
    assert_eq!(printed("book", &words, Stdio::null()), expected);
}

/// Standard input is one of the inputs, at any place.
#[test]
fn book_from_standard_input() {
    built();
    let open = || Stdio::from(fs::File::open(top().join("examples/update-v3.bin")).unwrap());
    let by_name = |words: &[&str]| printed("book", words, Stdio::null());
    let [v2, v3] = ["examples/update-v2.bin", "examples/update-v3.bin"];
    assert_eq!(printed("book", &["-"], open()), by_name(&[v3]));
    assert_eq!(printed("book", &["-", v2], open()), by_name(&[v3, v2]));
    assert_eq!(printed("book", &[v2, "-"], open()), by_name(&[v2, v3]));
}

/// What is refused, by the numbers of `./dissect` where it refuses the update, and changes no row.
#[test]
fn book_refuses() {
    built();
    let cases = [
        (vec![2], 4),
        (vec![2, 0], 12),
        (vec![3, 2], 12),
        (vec![3, 3], 12),
        (vec![1, 1, 0, 0, 0, 0], 1),
        (vec![2, 1, 0, 0, 0], 4),
        ([vec![3, 1], vec![0; 2_049]].concat(), 2),
        (instance(1, 0xFFFF), 11),
    ];
    for (input, number) in cases {
        let path = file("commands-book-refused", &input);
        let text = printed("book", &[&path], Stdio::null());
        assert_eq!(text, format!("input 1: refused {number}\n{HEADS}"));
        if input.get(1) == Some(&1) && number != 11 {
            let dissected = printed("dissect", &[&path], Stdio::null());
            assert_eq!(dissected, format!("refused {number} 0\n"));
        }
    }
    let longest = file(
        "commands-book-longest",
        &[vec![3, 1], vec![0; 2_048]].concat(),
    );
    let text = printed("book", &[&longest], Stdio::null());
    assert_eq!(text, format!("input 1: 0 replaced, 0 added\n{HEADS}"));
}
