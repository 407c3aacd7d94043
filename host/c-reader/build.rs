//! Compiles host/c/reader.c into an archive and links it.

use std::env;
use std::path::{Path, PathBuf};
use std::process::Command;

fn main() {
    let crate_dir = env::var("CARGO_MANIFEST_DIR").expect("cargo sets it");
    let source = Path::new(&crate_dir).join("../c/reader.c");
    let include = Path::new(&crate_dir).join("../../include");
    let out = PathBuf::from(env::var("OUT_DIR").expect("cargo sets it"));
    let object = out.join("reader.o");
    let archive = out.join("libospf_reader.a");

    let mut compile = tool("CC", "cc");
    compile.args(["-std=c11", "-O2", "-fPIC", "-Wall", "-Wextra", "-Werror"]);
    compile.arg("-pedantic").arg("-I").arg(&include);
    run(compile.arg("-c").arg(&source).arg("-o").arg(&object));
    run(tool("AR", "ar").arg("crs").arg(&archive).arg(&object));

    for file in [source, include.join("ospf.h")] {
        println!("cargo:rerun-if-changed={}", file.display());
    }
    println!("cargo:rustc-link-search=native={}", out.display());
    println!("cargo:rustc-link-lib=static=ospf_reader");
}

/// The program that the environment names, or else the usual one.
fn tool(variable: &str, usual: &str) -> Command {
    println!("cargo:rerun-if-env-changed={variable}");
    Command::new(env::var(variable).unwrap_or_else(|_| usual.to_string()))
}

fn run(command: &mut Command) {
    let program = command.get_program().to_string_lossy().into_owned();
    match command.status() {
        Ok(status) => assert!(status.success(), "{program} failed on host/c/reader.c"),
        Err(error) => {
            panic!("{program} cannot be run, and c-reader needs a C compiler and ar: {error}")
        }
    }
}
