//! The build script: which archive it links, and what it says where there is
//! none.

mod folder;

use folder::folder;
use std::fs;
use std::path::{Path, PathBuf};
use std::process::{Command, Output};
use std::sync::LazyLock;

/// The build script, compiled.
static SCRIPT: LazyLock<PathBuf> = LazyLock::new(|| {
    let source = Path::new(env!("CARGO_MANIFEST_DIR")).join("build.rs");
    let script = folder("archive").join("build-script");
    let mut compile = Command::new("rustc");
    compile.args(["--edition", "2024", "-o"]);
    let status = compile.arg(&script).arg(source).status();
    assert!(status.expect("rustc").success());
    script
});

/// Runs it for a target, with the override or without; what it prints, and
/// whether it succeeds.
fn run(arch: &str, os: &str, folder: Option<&Path>) -> (bool, String) {
    let mut command = Command::new(&*SCRIPT);
    command
        .env_remove("OSPF_LIB_DIR")
        .env("CARGO_MANIFEST_DIR", env!("CARGO_MANIFEST_DIR"))
        .env("CARGO_CFG_TARGET_ARCH", arch)
        .env("CARGO_CFG_TARGET_OS", os);
    if let Some(folder) = folder {
        command.env("OSPF_LIB_DIR", folder);
    }
    let Output {
        status,
        stdout,
        stderr,
    } = command.output().expect("the build script runs");
    let printed = [stdout, stderr].concat();
    (status.success(), String::from_utf8_lossy(&printed).into())
}

#[test]
fn of_the_repository() {
    let (linked, says) = run("x86_64", "linux", None);
    assert!(linked, "{says}");
    assert!(says.contains("target/staticlib\n"), "{says}");
    assert!(says.contains("rustc-link-lib=static=ospf"), "{says}");
}

#[test]
fn of_another_folder() {
    let folder = folder("other");
    fs::write(folder.join("libospf.a"), "").expect("an archive");
    for arch in ["x86_64", "aarch64"] {
        let (linked, says) = run(arch, "linux", Some(&folder));
        assert!(linked, "{says}");
        let search = format!("rustc-link-search=native={}\n", folder.display());
        assert!(says.contains(&search), "{says}");
    }
}

#[test]
fn missing() {
    let (linked, says) = run("x86_64", "linux", Some(&folder("empty")));
    assert!(!linked);
    assert!(says.contains("run `tools/build ospf`"), "{says}");
}

#[test]
fn of_another_target() {
    for (arch, os) in [("aarch64", "linux"), ("x86_64", "windows")] {
        let (linked, says) = run(arch, os, None);
        assert!(!linked);
        assert!(says.contains(&format!("for {arch} {os}")), "{says}");
        assert!(says.contains("OSPF_LIB_DIR"), "{says}");
    }
}
