//! Makes counting copies of the reference files.
//!
//! Before every statement and match arm of the ported functions a copy has a
//! call that counts. Nothing else of the text moves, so lines stay lines. The
//! copies serve this figure only; the oracle compiles the files themselves.

mod instrument;
mod lex;

use std::fmt::Write;
use std::path::{Path, PathBuf};
use std::{env, fs};

use instrument::{Branch, Instrumented, Point};

const SOURCES: &str = "../../docs/src/crates";

/// A file, what is replaced in its `use` lines, and its ported functions; no
/// list means all functions after the field tables.
type File = (
    &'static str,
    (&'static str, &'static str),
    &'static [&'static str],
);

const UTIL: (&str, &str) = ("packet_dissector_core::util", "crate::util");

const FILES: [File; 6] = [
    (
        "packet-dissector-core/src/util.rs",
        ("crate::error", "packet_dissector_core::error"),
        &[
            "read_be_u16",
            "read_be_u24",
            "read_be_u32",
            "read_be_u64",
            "read_ipv4_addr",
        ],
    ),
    (
        "packet-dissector-ospf/src/tlv.rs",
        UTIL,
        &[
            "prefix_octets",
            "prefix_to_ipv6",
            "push_unparsed",
            "push_u8_at",
            "push_u24_at",
            "push_ipv4_at",
            "push_ipv6_at",
            "set_range_end",
        ],
    ),
    (
        "packet-dissector-ospf/src/common.rs",
        UTIL,
        &["push_lsa_headers", "push_lsu_lsas"],
    ),
    ("packet-dissector-ospf/src/v2_lsa.rs", UTIL, &[]),
    ("packet-dissector-ospf/src/v3_lsa.rs", UTIL, &[]),
    (
        "packet-dissector-ospf/src/trailer.rs",
        UTIL,
        &["push_lls", "auth_trailer_len", "push_auth_trailer"],
    ),
];

fn main() {
    let root = PathBuf::from(env::var_os("CARGO_MANIFEST_DIR").expect("set by cargo"));
    let out = PathBuf::from(env::var_os("OUT_DIR").expect("set by cargo"));
    println!("cargo::rerun-if-changed=build");
    let mut modules = String::new();
    let mut all = Instrumented::default();
    for (path, (from, to), functions) in FILES {
        let source = root.join(SOURCES).join(path);
        println!("cargo::rerun-if-changed={}", source.display());
        let text = fs::read_to_string(&source).expect("a reference file");
        let name = Path::new(path)
            .file_stem()
            .expect("a name")
            .to_string_lossy();
        let copy = out.join(format!("{name}.rs"));
        let counted = all.add(&name, &text, functions).replace(from, to);
        // As in the oracle, for the file that ends in a doc comment.
        fs::write(&copy, counted + "const _: () = ();\n").expect("write a copy");
        let line = writeln!(
            modules,
            "#[allow(dead_code)]\n#[path = {copy:?}]\npub(crate) mod {name};"
        );
        line.expect("write to a string");
    }
    fs::write(out.join("modules.rs"), modules).expect("write the modules");
    fs::write(out.join("points.rs"), tables(&all)).expect("write the points");
}

/// The tables of points, lines and branches, as Rust.
fn tables(all: &Instrumented) -> String {
    let mut text = format!("pub static POINTS: [Point; {}] = [\n", all.points.len());
    for Point {
        file,
        function,
        line,
    } in &all.points
    {
        text += &format!("Point {{ file: {file:?}, function: {function:?}, line: {line} }},\n");
    }
    text += &format!("];\npub static LINES: [Line; {}] = [\n", all.lines.len());
    for ((file, line), points) in &all.lines {
        text += &format!("Line {{ file: {file:?}, line: {line}, points: &{points:?} }},\n");
    }
    text += &format!(
        "];\npub static BRANCHES: [Branch; {}] = [\n",
        all.branches.len()
    );
    for Branch { kind, from, to } in &all.branches {
        text += &format!("Branch {{ kind: {kind:?}, from: {from}, to: {to} }},\n");
    }
    text + "];\n"
}
