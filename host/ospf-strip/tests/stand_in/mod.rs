//! A small repository with a stand-in for `rt`, in which a script of this one runs in milliseconds and proves nothing.
//! It has no `.rt` and no `.antt` file: `rt` looks for those in all of this repository, and wants each in a listed crate.

use std::env;
use std::fs::{self, OpenOptions};
use std::io::Write;
use std::path::{Path, PathBuf};
use std::process::{Command, Output};

pub struct Repository {
    top: PathBuf,
}

impl Repository {
    /// Crate `second` over `first`, and `other`, which neither needs; with a copy of a script. Each test has a name of its
    /// own.
    pub fn new(name: &str, script: &str) -> Repository {
        let top = Path::new(env!("CARGO_TARGET_TMPDIR")).join(name);
        if top.exists() {
            fs::remove_dir_all(&top).unwrap();
        }
        let repository = Repository { top };
        let text = fs::read_to_string(real_top().join(script)).unwrap();
        repository.write(script, &text);
        repository.write(
            "crates.txt",
            "# In order.\nfirst:\nother:\nsecond: first io\n",
        );
        for name in ["first", "other", "second"] {
            repository.write(&format!("crates/{name}/source"), "");
        }
        repository
    }

    pub fn path(&self, name: &str) -> PathBuf {
        self.top.join(name)
    }

    /// Writes a file, and what folders it needs.
    pub fn write(&self, name: &str, text: &str) {
        let path = self.path(name);
        fs::create_dir_all(path.parent().unwrap()).unwrap();
        fs::write(path, text).unwrap();
    }

    pub fn append(&self, name: &str, text: &str) {
        let mut file = OpenOptions::new()
            .append(true)
            .open(self.path(name))
            .unwrap();
        file.write_all(text.as_bytes()).unwrap();
    }

    /// The command that runs the script of that name, with words.
    pub fn command(&self, script: &str, words: &[&str]) -> Command {
        let others = env::var_os("PATH").unwrap();
        let paths = [folder()].into_iter().chain(env::split_paths(&others));
        let mut command = Command::new("sh");
        command
            .arg(self.path(script))
            .args(words)
            .env("PATH", env::join_paths(paths).unwrap());
        command
    }

    /// The words of each call of the stand-in since this was asked last.
    pub fn calls(&self) -> Vec<String> {
        let path = self.path("calls");
        let calls = fs::read_to_string(&path).unwrap_or_default();
        fs::write(path, "").unwrap();
        calls.lines().map(String::from).collect()
    }
}

/// What a script wrote to standard output and standard error.
pub fn texts(output: &Output) -> (String, String) {
    let text = |bytes: &[u8]| String::from_utf8(bytes.to_vec()).unwrap();
    (text(&output.stdout), text(&output.stderr))
}

fn real_top() -> PathBuf {
    Path::new(env!("CARGO_MANIFEST_DIR")).join("../..")
}

/// Where the stand-in lies.
pub fn folder() -> PathBuf {
    Path::new(env!("CARGO_MANIFEST_DIR")).join("tests/stand_in")
}
