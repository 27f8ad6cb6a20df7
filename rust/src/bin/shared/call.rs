//! How the programs on files are called.

use std::env;
use std::ffi::{OsStr, OsString};
use std::os::unix::ffi::OsStrExt;
use std::process::ExitCode;

/// The exit status of a wrong call.
pub const BAD_USAGE: u8 = 2;

/// Runs a program with the words that it is called with, or prints its usage where they ask for it.
pub fn called(usage: &str, run: impl FnOnce(&[&OsStr]) -> ExitCode) -> ExitCode {
    let words: Vec<OsString> = env::args_os().skip(1).collect();
    let words: Vec<&OsStr> = words.iter().map(OsString::as_os_str).collect();
    match words[..] {
        [word] if word == "--help" || word == "-h" => {
            print!("{usage}");
            ExitCode::SUCCESS
        }
        _ => run(&words),
    }
}

pub fn wrong_call(usage: &str) -> ExitCode {
    eprintln!("{}", usage.trim());
    ExitCode::from(BAD_USAGE)
}

/// Whether a word is an option and names no file.
pub fn is_option(word: &&OsStr) -> bool {
    word.as_bytes().starts_with(b"--")
}
