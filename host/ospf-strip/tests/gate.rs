//! `./test`: what it counts, and what it says of the toolchain.

mod stand_in;

use stand_in::{Repository, folder, texts};
use std::fs;
use std::os::unix::fs::symlink;

/// A repository whose proofs and host tests pass: 3 by `rt ci`, 2 by `host/test`.
fn repository(name: &str) -> Repository {
    let repository = Repository::new(name, "test");
    fs::create_dir(repository.path("host")).unwrap();
    symlink(folder().join("rt"), repository.path("host/test")).unwrap();
    repository.write("README.md", "# Title\n\n    kit-1 logic 0\n");
    repository.write(
        "does/ci",
        "echo 'rt: ok; handles allowed: none; must-fail edits: 1 refused; all'; echo '3 passed, 0 failed'\n",
    );
    repository.write("does/version", "echo 'kit-1 logic 0'\n");
    repository.write("does/host-test", "echo 'host: 2 tests passed'\n");
    repository
}

/// Whether it passed, and the lines that it printed.
fn run(repository: &Repository) -> (bool, Vec<String>) {
    let output = repository.command("test", &[]).output().unwrap();
    let (stdout, _) = texts(&output);
    let lines = stdout.lines().map(String::from).collect();
    (output.status.success(), lines)
}

/// The crates are one step, and so are `rt ci`, its edits and `host/test`, beside what `rt ci` and `host/test` count.
#[test]
fn steps_are_counted() {
    let repository = repository("gate-counts");
    let (passed, lines) = run(&repository);
    assert!(passed);
    assert_eq!(
        lines,
        [
            "rt: ok; handles allowed: none; must-fail edits: 1 refused; all",
            "3 passed, 0 failed",
            "host: 2 tests passed",
            "9 passed, 0 failed"
        ]
    );
    assert_eq!(repository.calls(), ["ci", "", "version"]);
}

#[test]
fn crates_that_are_not_listed_are_named() {
    let repository = repository("gate-lists");
    repository.append("crates.txt", "thirdly:\n");
    repository.write("crates/third/source", "");
    repository.write("crates/fourth/source", "");
    let (passed, lines) = run(&repository);
    assert!(!passed);
    assert_eq!(
        lines[..3],
        [
            "crate fourth is not listed in crates.txt",
            "crate third is not listed in crates.txt",
            "FAILED: every crate is listed in crates.txt"
        ]
    );
    assert_eq!(lines.last().unwrap(), "8 passed, 1 failed");
}

/// Lists of a static library, and of a crate with more words, are lists of it.
#[test]
fn static_library_is_listed() {
    let repository = repository("gate-library");
    repository.append("crates.txt", "third staticlib: first\n");
    repository.write("crates/third/source", "");
    let (passed, lines) = run(&repository);
    assert!(passed, "{lines:?}");
}

/// What `rt ci` prints and its status, what the step is called that fails, and the last line.
#[test]
fn proofs_that_do_not_pass_fail() {
    let ok = "rt: ok; handles allowed: none; must-fail edits: 2 refused";
    let ci = "FAILED: rt ci";
    let edits = "FAILED: every must-fail edit can be tried";
    let cases = [
        (
            "echo '3 passed, 0 failed'; false".into(),
            ci,
            "8 passed, 1 failed",
        ),
        (
            "echo '1 passed, 2 failed'; false".into(),
            ci,
            "6 passed, 3 failed",
        ),
        (
            "echo '3 passed, 0 failed'; echo 'no count'".into(),
            ci,
            "5 passed, 1 failed",
        ),
        (":".into(), ci, "5 passed, 1 failed"),
        (
            format!("echo '{ok}, 2 bad; all'; echo '3 passed, 0 failed'"),
            edits,
            "8 passed, 1 failed",
        ),
        (
            format!(
                "echo '{ok}, 1 of them only by a limit, 12 bad; all'; echo '3 passed, 0 failed'"
            ),
            edits,
            "8 passed, 1 failed",
        ),
    ];
    for (i, (does, step, last)) in cases.into_iter().enumerate() {
        let repository = repository(&format!("gate-fails-{i}"));
        repository.write("does/ci", &format!("{does}\n"));
        let (passed, lines) = run(&repository);
        assert!(!passed, "{does}");
        assert!(lines.iter().any(|line| line == step), "{lines:?}");
        assert_eq!(lines.last().unwrap(), last, "{does}");
    }
}

/// A remark behind the counts, and edits that a limit alone refuses, are no failure.
#[test]
fn remarks_are_no_failure() {
    let repository = repository("gate-remarks");
    let ok = "rt: ok; must-fail edits: 2 refused, 1 of them only by a limit; nothing is 3 bad";
    let does = format!("echo '{ok}'; echo '3 passed, 0 failed (first alone)'\n");
    repository.write("does/ci", &does);
    let (passed, lines) = run(&repository);
    assert!(passed, "{lines:?}");
    assert_eq!(lines.last().unwrap(), "9 passed, 0 failed");
}

#[test]
fn another_toolchain_is_a_warning() {
    let repository = repository("gate-warns");
    repository.write("does/version", "echo 'kit-1 logic'\n");
    let (passed, lines) = run(&repository);
    assert!(passed);
    let [.., warning, last] = &lines[..] else {
        panic!("{lines:?}");
    };
    assert!(
        warning.starts_with("warning: rt version prints 'kit-1 logic',"),
        "{warning}"
    );
    assert_eq!(last, "9 passed, 0 failed");
}
