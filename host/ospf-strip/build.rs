//! Links the proved library, which `tools/build ospf` writes below the
//! repository's `target/`, or one that `OSPF_LIB_DIR` names.

use std::env;
use std::path::{Path, PathBuf};

/// The folder that has `libospf.a`, where it is another than the repository's.
const OVERRIDE: &str = "OSPF_LIB_DIR";

fn main() {
    println!("cargo:rerun-if-env-changed={OVERRIDE}");
    let crate_dir = env::var("CARGO_MANIFEST_DIR").expect("cargo sets it");
    let top = Path::new(&crate_dir).join("../..");
    let folder = env::var_os(OVERRIDE).map_or_else(|| of_repository(&top), PathBuf::from);
    let library = folder.join("libospf.a");
    assert!(
        library.exists(),
        "{} is missing: run `tools/build ospf` at the repository's top first, or set {OVERRIDE} to the folder that has it",
        library.display()
    );
    println!("cargo:rerun-if-changed={}", library.display());
    println!("cargo:rustc-link-search=native={}", folder.display());
    println!("cargo:rustc-link-lib=static=ospf");
    // For the build scripts of crates that compile C against it.
    println!("cargo:include={}", top.join("include").display());
}

/// The archive of the repository is for one target alone.
fn of_repository(top: &Path) -> PathBuf {
    let target = ["ARCH", "OS"].map(|part| env::var(format!("CARGO_CFG_TARGET_{part}")));
    let [arch, os] = target.map(|part| part.expect("cargo sets it"));
    assert!(
        (arch.as_str(), os.as_str()) == ("x86_64", "linux"),
        "`tools/build ospf` writes libospf.a for x86_64 Linux, and this build is for {arch} {os}; set {OVERRIDE} to the folder of a libospf.a for it"
    );
    top.join("target/staticlib")
}
