//! `tools/build`: it runs `rt` where a source changed and nowhere else, and says what is going on.

mod stand_in;

use stand_in::{Repository, texts};
use std::fs::{self, File};
use std::io::{BufRead, BufReader, Read};
use std::process::{Command, Stdio};
use std::thread::sleep;
use std::time::{Duration, SystemTime};

const FILE: &str = "target/bin/second";

/// What `rt` does where it proves all: it writes the program only if that is not there, as where nothing is left to prove.
const MAKES: &str =
    "mkdir -p crates/second/out; [ -e crates/second/out/second ] || : >crates/second/out/second\n";

/// What `rt` says of a crate that it proves; of one that is proved already it says nothing.
fn proved(name: &str) -> String {
    let count = "modules loaded=0 checked=4";
    format!(
        "echo 'rt: chose --jobs 2 for {name}'; echo 'crate {name}: {count}'; echo 'logic=proved functions=1'"
    )
}

fn repository(name: &str, does: &str) -> Repository {
    let repository = Repository::new(name, "tools/build");
    repository.write("does/run", does);
    repository
}

fn build(repository: &Repository) -> Command {
    repository.command("tools/build", &["second"])
}

/// Builds, and says whether `rt` was run.
fn runs(repository: &Repository) -> bool {
    let output = build(repository).output().unwrap();
    assert!(output.status.success(), "{output:?}");
    let calls = repository.calls();
    let (stdout, stderr) = texts(&output);
    assert_eq!(stdout, "");
    assert_eq!(stderr.is_empty(), calls.is_empty(), "{stderr}");
    assert!(calls.is_empty() || calls == ["run in second"], "{calls:?}");
    !calls.is_empty()
}

#[test]
fn nothing_to_do_is_quick_and_silent() {
    let repository = repository("build-nothing", MAKES);
    assert!(runs(&repository));
    assert!(!runs(&repository));
    assert!(!runs(&repository));
}

#[test]
fn missing_file_is_built() {
    let repository = repository("build-missing", MAKES);
    assert!(runs(&repository));
    fs::remove_file(repository.path(FILE)).unwrap();
    assert!(runs(&repository));
    assert!(!runs(&repository));
}

/// Lets the file system's clock, which goes by steps of some milliseconds, move on.
fn tick() {
    sleep(Duration::from_millis(50));
}

/// A change after which `rt` has to run, once.
fn changed(name: &str, change: impl Fn(&Repository)) {
    let repository = repository(name, MAKES);
    repository.write("crates/first/old/source", "");
    assert!(runs(&repository));
    tick();
    change(&repository);
    assert!(runs(&repository));
    assert!(!runs(&repository));
}

#[test]
fn edited_source_is_built() {
    changed("build-edited", |r| r.append("crates/first/source", "\n"));
    changed("build-listed", |r| r.append("crates.txt", "\n"));
}

#[test]
fn added_source_is_built() {
    changed("build-added", |r| r.write("crates/first/new/source", ""));
}

#[test]
fn deleted_source_is_built() {
    changed("build-deleted", |r| {
        fs::remove_file(r.path("crates/first/old/source")).unwrap()
    });
    changed("build-less", |r| {
        fs::remove_dir_all(r.path("crates/other")).unwrap()
    });
    changed("build-folder", |r| {
        fs::remove_dir_all(r.path("crates/first/old")).unwrap()
    });
}

/// What `rt` keeps of a crate is no source: it writes it, and `rt ci` moves it away and back.
#[test]
fn kept_work_is_no_source() {
    let repository = repository("build-kept", MAKES);
    assert!(runs(&repository));
    tick();
    for crate_dir in ["crates/first", "crates/second"] {
        repository.write(&format!("{crate_dir}/out/incremental/part"), "");
    }
    assert!(!runs(&repository));
    for crate_dir in ["crates/first", "crates/second"] {
        fs::remove_dir_all(repository.path(&format!("{crate_dir}/out"))).unwrap();
    }
    assert!(!runs(&repository));
}

/// A static library is built by another command, and has a place of its own.
#[test]
fn static_library_is_built() {
    let repository = repository("build-library", ":\n");
    repository.write("crates.txt", "first:\nsecond staticlib: first\n");
    let does = "mkdir -p crates/second/out; echo archive >crates/second/out/libsecond.a";
    repository.write("does/lib", &format!("{does}; {}\n", proved("second")));
    let output = build(&repository).output().unwrap();
    assert!(output.status.success(), "{output:?}");
    assert_eq!(repository.calls(), ["lib in second"]);
    let (_, stderr) = texts(&output);
    assert!(
        stderr.contains("\nproved second, 0 of 2 crates left\n"),
        "{stderr}"
    );
    let archive = repository.path("target/staticlib/libsecond.a");
    assert_eq!(fs::read_to_string(archive).unwrap(), "archive\n");
    assert!(build(&repository).output().unwrap().status.success());
    assert!(repository.calls().is_empty());
}

/// As by a copy that keeps the times of files.
#[test]
fn source_with_an_older_time_is_built() {
    changed("build-older", |r| {
        let file = File::options()
            .append(true)
            .open(r.path("crates/first/source"))
            .unwrap();
        file.set_modified(SystemTime::UNIX_EPOCH).unwrap();
    });
}

#[test]
fn edit_during_the_run_is_built() {
    let edits = format!("{MAKES}sleep 0.05; echo >>crates/first/source; sleep 0.05\n");
    let repository = repository("build-during", &edits);
    assert!(runs(&repository));
    repository.write("does/run", MAKES);
    assert!(runs(&repository));
    assert!(!runs(&repository));
}

/// A run that fails shows what `rt` said, but for what it proved, and is made again, though the file is there and newer
/// than the sources.
#[test]
fn failure_is_shown() {
    let proves = format!("echo 'fn first::f: proved'; {}", proved("first"));
    let not = "echo 'fn second::f: not proved'; echo 'crate second: modules loaded=0 checked=4'; echo 'logic=not-proved'";
    let fails = format!(
        "{MAKES}{proves}; {not}; echo 'rattle build: nothing was built'; echo 'rt: second failed' >&2; exit 1\n"
    );
    let repository = repository("build-fails", &fails);
    for _ in 0..2 {
        let output = build(&repository).output().unwrap();
        assert!(!output.status.success());
        let (stdout, stderr) = texts(&output);
        assert_eq!(stdout, "");
        let lines: Vec<_> = stderr.lines().skip(1).collect();
        assert_eq!(
            lines,
            [
                "proved first, 1 of 2 crates left",
                "fn second::f: not proved",
                "logic=not-proved",
                "rattle build: nothing was built",
                "rt: second failed",
                "target/bin/second is not built: rt run failed in crates/second",
            ]
        );
        assert!(!stderr.contains("built target/bin/second in "), "{stderr}");
        assert_eq!(repository.calls(), ["run in second"]);
    }
    repository.write("does/run", MAKES);
    assert!(runs(&repository));
    assert!(!runs(&repository));
}

#[test]
fn file_that_rt_does_not_make_is_a_failure() {
    let repository = repository("build-makes-none", ":\n");
    let output = build(&repository).output().unwrap();
    assert!(!output.status.success());
    assert!(!repository.path(FILE).exists());
    let (_, stderr) = texts(&output);
    assert!(
        stderr.contains("is not built, though rt run passed in crates/second"),
        "{stderr}"
    );
}

#[test]
fn proofs_are_counted() {
    let says = format!(
        "echo 'fn first::f: proved'; {} >&2; {}\n",
        proved("first"),
        proved("second")
    );
    let repository = repository("build-counts", &format!("{MAKES}{says}"));
    let (_, stderr) = texts(&build(&repository).output().unwrap());
    let lines: Vec<_> = stderr.lines().collect();
    let [begin, first, second, end] = lines[..] else {
        panic!("{stderr}");
    };
    assert!(
        begin.starts_with("proving and building target/bin/second"),
        "{begin}"
    );
    assert_eq!(first, "proved first, 1 of 2 crates left");
    assert_eq!(second, "proved second, 0 of 2 crates left");
    assert!(end.starts_with("built target/bin/second in "), "{end}");

    repository.write("does/run", &format!("{}\n", proved("second")));
    tick();
    repository.append("crates/second/source", "\n");
    let (_, stderr) = texts(&build(&repository).output().unwrap());
    assert!(!stderr.contains("proved first"), "{stderr}");
    assert!(
        stderr.contains("\nproved second, 0 of 2 crates left\n"),
        "{stderr}"
    );
}

/// `rt` goes on only once the line of its first crate was read.
#[test]
fn proofs_are_shown_as_they_end() {
    let waits = "i=0
        while [ ! -e seen ]; do i=$((i + 1)); [ $i -lt 200 ] || exit 1; sleep 0.05; done\n";
    let does = format!("{MAKES}{}; {waits}", proved("first"));
    let repository = repository("build-shows", &does);
    let mut child = build(&repository).stderr(Stdio::piped()).spawn().unwrap();
    let mut stderr = BufReader::new(child.stderr.take().unwrap());
    let mut line = String::new();
    while !line.starts_with("proved first") {
        line.clear();
        assert_ne!(stderr.read_line(&mut line).unwrap(), 0);
    }
    repository.write("seen", "");
    stderr.read_to_string(&mut line).unwrap();
    assert!(child.wait().unwrap().success(), "{line}");
}
