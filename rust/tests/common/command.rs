//! Runs the programs that cargo builds.

use std::ffi::OsStr;
use std::fs;
use std::io::Write;
use std::path::{Path, PathBuf};
use std::process::{Command, Output, Stdio};

/// Runs a program in a folder with bytes as standard input.
pub fn run(program: &str, folder: &Path, words: &[&OsStr], bytes: &[u8]) -> Output {
    let mut command = Command::new(program);
    command.args(words).current_dir(folder);
    command.stdin(Stdio::piped()).stdout(Stdio::piped());
    let mut child = command.stderr(Stdio::piped()).spawn().expect("it starts");
    let mut input = child.stdin.take().expect("a pipe");
    // It need not read its input.
    let _ = input.write_all(bytes);
    drop(input);
    child.wait_with_output().expect("it ends")
}

/// Holds its output, its errors and its exit status to what is expected.
pub fn expect(
    program: &str,
    folder: &Path,
    words: &[&str],
    bytes: &[u8],
    expected: (&str, &str, i32),
) {
    let words: Vec<&OsStr> = words.iter().map(OsStr::new).collect();
    let output = run(program, folder, &words, bytes);
    let [printed, errors] =
        [&output.stdout, &output.stderr].map(|text| String::from_utf8_lossy(text));
    let status = output.status.code().expect("an exit status");
    assert_eq!((&*printed, &*errors, status), expected, "{words:?}");
}

pub fn examples() -> PathBuf {
    Path::new(env!("CARGO_MANIFEST_DIR")).join("../examples")
}

/// An empty folder of a test's own.
pub fn folder(name: &str) -> PathBuf {
    let folder = Path::new(env!("CARGO_TARGET_TMPDIR")).join(name);
    let _ = fs::remove_dir_all(&folder);
    fs::create_dir(&folder).expect("a folder");
    folder
}
