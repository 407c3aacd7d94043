//! The programs of README.md, in Rust, in C and in Python, print what it says.

mod folder;

use folder::folder;
use std::fs;
use std::io::Write;
use std::path::{Path, PathBuf};
use std::process::{Command, Output};

fn root() -> PathBuf {
    Path::new(env!("CARGO_MANIFEST_DIR")).join("../..")
}

/// The part of README.md under a heading.
fn section(heading: &str) -> String {
    let readme = fs::read_to_string(root().join("README.md")).expect("README.md");
    let (_, rest) = readme
        .split_once(&format!("\n## {heading}\n"))
        .expect(heading);
    rest.split("\n## ").next().unwrap_or_default().to_string()
}

/// The one block of a section in this language.
fn block(section: &str, language: &str) -> String {
    let blocks = section.split("```").skip(1).step_by(2);
    let mut blocks = blocks.filter_map(|block| block.strip_prefix(&format!("{language}\n")));
    let block = blocks.next().expect("a block in that language");
    assert_eq!(blocks.next(), None, "a second block in {language}");
    block.to_string()
}

/// What a command prints, if it succeeds.
fn printed(command: &mut Command) -> String {
    let Output {
        status,
        stdout,
        stderr,
    } = command.output().expect("a command that can be run");
    let stderr = String::from_utf8_lossy(&stderr);
    assert!(status.success(), "{command:?}: {status}\n{stderr}");
    String::from_utf8(stdout).expect("text")
}

/// As a crate of its own, outside of this workspace.
#[test]
fn from_rust() {
    let section = section("From Rust");
    let folder = folder("from-rust");
    let dependencies = block(&section, "toml");
    let path = "path/to/this/host/ospf-strip";
    assert!(dependencies.contains(path));
    let dependencies = dependencies.replace(path, env!("CARGO_MANIFEST_DIR"));
    let package = "[package]\nname = \"yours\"\nedition = \"2024\"\n\n[workspace]\n";
    fs::create_dir_all(folder.join("src")).expect("a folder");
    let manifest = folder.join("Cargo.toml");
    fs::write(&manifest, format!("{package}\n{dependencies}")).expect("the manifest is written");
    fs::write(folder.join("src/main.rs"), block(&section, "rust")).expect("the program is written");
    let mut run = Command::new(env!("CARGO"));
    run.args(["run", "--offline", "--quiet", "--manifest-path"]);
    run.arg(manifest)
        .arg("--target-dir")
        .arg(folder.join("target"));
    assert_eq!(printed(&mut run), block(&section, "text"));
}

#[test]
fn from_c() {
    let section = section("From C");
    let folder = folder("from-c");
    let (source, program) = (folder.join("yours.c"), folder.join("yours"));
    fs::write(&source, block(&section, "c")).expect("the program is written");
    let command = "cc -I include yours.c target/staticlib/libospf.a";
    assert!(section.contains(&format!("\n    {command}\n")));
    let mut words = command.split(' ').map(|word| match word {
        "yours.c" => source.as_os_str(),
        _ => word.as_ref(),
    });
    let mut compile = Command::new(words.next().expect("cc"));
    compile.args([
        "-std=c11",
        "-O2",
        "-Wall",
        "-Wextra",
        "-Werror",
        "-pedantic",
    ]);
    compile.args(words).arg("-o").arg(&program);
    printed(compile.current_dir(root()));
    assert_eq!(printed(&mut Command::new(program)), block(&section, "text"));
}

/// The program in Python has the length of every kind's body; its own strip has
/// few of the kinds.
#[test]
fn lengths_of_bodies() {
    let lengths = listing::KINDS.map(|(kind, _, body)| format!("{kind}: {body}"));
    let program = block(&section("From Python"), "python");
    let lengths = format!("{{{}}}", lengths.join(", "));
    assert!(program.contains(&lengths), "{lengths}");
}

#[test]
fn from_python() {
    if Command::new("python3").arg("--version").output().is_err() {
        // Not by a macro: a test that passes shows nothing of those.
        let mut error = std::io::stderr();
        writeln!(error, "test from_python was not run: there is no python3").expect("a line");
        return;
    }
    let section = section("From Python");
    let folder = folder("from-python");
    let here = |text: &str| {
        let library = folder.join("libospf.so");
        assert!(text.contains("target/libospf.so"), "{text}");
        text.replace(
            "target/libospf.so",
            library.to_str().expect("a path in UTF-8"),
        )
    };
    let mut lines = section.lines().map(str::trim_start);
    let command = lines.find(|line| line.starts_with("cc -shared "));
    let command = here(command.expect("the command for the shared object"));
    printed(
        Command::new("sh")
            .args(["-c", &command])
            .current_dir(root()),
    );
    let program = here(&block(&section, "python"));
    let run = printed(Command::new("python3").args(["-c", &program]));
    assert_eq!(run, block(&section, "text"));
}
