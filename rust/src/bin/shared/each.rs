//! Programs that tell of each record or trace in files where these lie back to back.

use crate::files::{put, status, told, BAD_FILE};
use crate::input::{bytes_of, source_of};
use litmus::Refusal;
use std::ffi::OsStr;
use std::process::ExitCode;

/// What a program tells of one of them.
pub struct Finding {
    /// How many bytes it takes.
    pub length: usize,
    pub lines: String,
    /// Whether it is as the exit status 0 asks for.
    pub good: bool,
}

/// Prints what is found of each in every file, and why something can't be read. What `find` is handed
/// is what messages call the file, the place in the file, and the bytes from there on.
pub fn tell_each(
    files: &[&OsStr],
    find: impl Fn(&str, usize, &[u8]) -> Result<Finding, Refusal>,
) -> ExitCode {
    let mut all_good = true;
    for file in named(files) {
        let source = source_of(file);
        let (lines, good) = match told(&source, bytes_of(file)) {
            Ok(bytes) => {
                let (lines, good) = found(&bytes, |start, rest| find(&source, start, rest));
                (lines, told(&source, good))
            }
            Err(message) => (String::new(), Err(message)),
        };
        if let Err(message) = put(lines.as_bytes(), None) {
            return status(Err(message));
        }
        all_good &= good.unwrap_or_else(|message| {
            eprintln!("{message}");
            false
        });
    }
    match all_good {
        true => ExitCode::SUCCESS,
        false => ExitCode::from(BAD_FILE),
    }
}

/// The files, or standard input if none is named.
fn named<'a>(files: &[&'a OsStr]) -> Vec<&'a OsStr> {
    match files {
        [] => vec![OsStr::new("-")],
        _ => files.to_vec(),
    }
}

/// The lines of all that lies back to back, and whether all is good; or why one can't be read, its
/// place from the first one's start.
fn found(
    bytes: &[u8],
    find: impl Fn(usize, &[u8]) -> Result<Finding, Refusal>,
) -> (String, Result<bool, Refusal>) {
    let (mut lines, mut all_good, mut start) = (String::new(), true, 0);
    while start < bytes.len() {
        match find(start, &bytes[start..]) {
            Ok(finding) => {
                lines += &finding.lines;
                all_good &= finding.good;
                start += finding.length;
            }
            Err(Refusal { number, place }) => {
                let place = place.map(|place| start + place);
                return (lines, Err(Refusal { number, place }));
            }
        }
    }
    (lines, Ok(all_good))
}
