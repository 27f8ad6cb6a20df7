//! Compiles C against the header and the archive.

use std::path::{Path, PathBuf};
use std::process::Command;

pub fn root() -> PathBuf {
    Path::new(env!("CARGO_MANIFEST_DIR")).join("..")
}

pub fn temporary(name: &str) -> PathBuf {
    Path::new(env!("CARGO_TARGET_TMPDIR")).join(name)
}

/// The program that a compiler makes of a source.
pub fn compiled(compiler: &[&str], source: &Path, name: &str) -> PathBuf {
    let program = temporary(name);
    let status = Command::new(compiler[0])
        .args(&compiler[1..])
        .args(["-Wall", "-Wextra", "-Werror", "-I"])
        .arg(root().join("include"))
        .arg(source)
        .args(["-x", "none"])
        .arg(root().join("target/staticlib/liblitmus.a"))
        .arg("-o")
        .arg(&program)
        .status();
    assert!(status.expect("the compiler starts").success());
    program
}
