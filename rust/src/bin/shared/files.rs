//! What the programs on files share: what they print, and how they end.

use std::ffi::OsStr;
use std::fmt::Display;
use std::fs;
use std::io::{self, Write};
use std::os::unix::ffi::OsStrExt;
use std::process::ExitCode;

/// The exit status where something can't be read or done.
pub const BAD_FILE: u8 = 1;

pub fn status(outcome: Result<(), String>) -> ExitCode {
    match outcome {
        Ok(()) => ExitCode::SUCCESS,
        Err(message) => {
            eprintln!("{message}");
            ExitCode::from(BAD_FILE)
        }
    }
}

/// The outcome, with a message that says where the fault lies.
pub fn told<T>(place: &str, outcome: Result<T, impl Display>) -> Result<T, String> {
    outcome.map_err(|fault| format!("{place}: {fault}"))
}

/// Writes a file, or to standard output if there is none.
pub fn put(bytes: &[u8], target: Option<&OsStr>) -> Result<(), String> {
    let written = match target {
        Some(file) => fs::write(file, bytes),
        None => print(bytes),
    };
    let place = target.map_or("standard output".to_string(), shown);
    told(&place, written)
}

fn print(bytes: &[u8]) -> io::Result<()> {
    let mut output = io::stdout();
    output.write_all(bytes)?;
    output.flush()
}

/// A file's name, so that none of its bytes upsets a terminal and a space ends it.
pub fn shown(file: &OsStr) -> String {
    let byte = |&byte: &u8| match byte {
        b'\\' => "\\\\".to_string(),
        b'!'..=b'~' => char::from(byte).to_string(),
        _ => format!("\\x{byte:02x}"),
    };
    file.as_bytes().iter().map(byte).collect()
}
