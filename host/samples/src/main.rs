//! Writes the stored answers of the oracle: `samples DIRECTORY`.

use std::path::Path;
use std::{env, fs, io};

fn main() -> io::Result<()> {
    let Some(directory) = env::args_os().nth(1) else {
        eprintln!("usage: samples DIRECTORY");
        std::process::exit(2);
    };
    let directory = Path::new(&directory);
    store(&directory.join("oracle.bin"), &samples::oracle_bin())?;
    store(&directory.join("captures.bin"), &samples::captures_bin()?)
}

fn store(path: &Path, bytes: &[u8]) -> io::Result<()> {
    let samples = samples::read(bytes).expect("what was written can be read");
    println!(
        "{}: {} samples, {} bytes",
        path.display(),
        samples.len(),
        bytes.len()
    );
    fs::write(path, bytes)
}
