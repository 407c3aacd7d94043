//! include/ospf.h by itself: the names it gives, and the compilers that take it.

use std::io::Write;
use std::path::Path;
use std::process::{Command, Stdio};

use ospf_strip::Version;

#[test]
fn names() {
    for number in 0..=255 {
        let version = Version::try_from(number).ok();
        for id in 0..=255 {
            let expected = version.and_then(|version| ospf_strip::name(version, id));
            let name = c_reader::name(number, id);
            assert_eq!(name.as_deref(), expected, "{number} {id}");
        }
    }
}

/// A program that uses each inline function, for the compilers' warnings.
const PROGRAM: &str = "
#include \"ospf.h\"
uint64_t use(const uint8_t *strip, size_t length);
uint64_t use(const uint8_t *strip, size_t length)
{
    uint64_t sum = ospf_number(1) + ospf_length(1) + ospf_block(1) + ospf_compared(1) + ospf_checksum(1);
    struct ospf_row rows[2] = {{0, 0, 0, 0, 0, 0, 0, 0}, {0, 0, 0, 0, 0, 0, 0, 0}};
    sum += ospf_replaced(1) + ospf_added(1) + rows[1].age;
    ospf_entry entry = ospf_begin();
    while ((entry = ospf_next(strip, length, entry)).kind != 0) {
        sum += ospf_id(entry) + ospf_start(entry) + ospf_end(entry);
        switch (entry.kind) {
        case OSPF_KIND_OPEN: sum += ospf_count(entry); break;
        case OSPF_KIND_U8: sum += ospf_u8(entry); break;
        case OSPF_KIND_U16: sum += ospf_u16(entry); break;
        case OSPF_KIND_U32: sum += ospf_u32(entry); break;
        case OSPF_KIND_IPV6: sum += *ospf_ipv6(entry); break;
        case OSPF_KIND_U64: sum += ospf_u64(entry); break;
        }
    }
    return sum + ospf_step(strip, length, 3).next + (ospf_name(2, 0) == NULL);
}
/* Strips of a known length, shorter and longer than an entry can be. */
int main(void)
{
    const uint8_t strip[] = {OSPF_KIND_U8, OSPF_V2_OPTIONS, 0, 0, 0, 2, 0, 0, 0, 3, 2};
    const uint8_t closes[40] = {OSPF_KIND_CLOSE};
    return use(strip, sizeof strip) + use(closes, sizeof closes) == 0;
}
";

/// Compiles the program with all warnings as errors, as this language.
fn compile(compiler: &str, language: &str, standard: &str) {
    let include = Path::new(env!("CARGO_MANIFEST_DIR")).join("../../include");
    for optimised in ["-O0", "-O2"] {
        let mut command = Command::new(compiler);
        command.args(["-Wall", "-Wextra", "-Werror", "-pedantic", "-S"]);
        command.args([standard, optimised, "-x", language, "-o", "/dev/null"]);
        command
            .arg("-I")
            .arg(&include)
            .arg("-")
            .stdin(Stdio::piped());
        let mut child = command.spawn().expect("the compiler can be run");
        let mut input = child.stdin.take().expect("its input");
        input.write_all(PROGRAM.as_bytes()).expect("the program");
        drop(input);
        let status = child.wait().expect("the compiler ends");
        assert!(status.success(), "{compiler} {standard} {optimised}");
    }
}

#[test]
fn compiles_as_c() {
    compile("cc", "c", "-std=c11");
}

#[test]
fn compiles_as_cpp() {
    if Command::new("c++").arg("--version").output().is_err() {
        // Not by a macro: a test that passes shows nothing of those.
        let mut error = std::io::stderr();
        writeln!(error, "test compiles_as_cpp was not run: there is no c++").expect("a line");
        return;
    }
    compile("c++", "c++", "-std=c++98");
    compile("c++", "c++", "-std=c++17");
}
