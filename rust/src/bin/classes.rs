//! Groups records that are one case but for the labels of threads and addresses.

#[path = "shared/call.rs"]
mod call;
#[path = "shared/files.rs"]
mod files;
#[path = "shared/input.rs"]
mod input;
#[path = "shared/name.rs"]
mod name;

use call::{called, is_option, wrong_call};
use files::{put, shown, status, told, BAD_FILE};
use input::{bytes_of, source_of};
use litmus::representative;
use name::name_of;
use std::collections::BTreeMap;
use std::ffi::OsStr;
use std::process::ExitCode;

const USAGE: &str = "\
usage: classes FILE..
       classes --write FILE [RECORD]

Reads a record from each FILE (- is standard input) and prints which of them
are one case but for the labels of threads and addresses. A line is a class:
the name of its records, and its files as they were given. Classes come in the
order of their first files.

    message: message.litmus message-swapped.litmus
    Dekker: dekker.litmus

With --write, writes the representative of FILE's record to the file RECORD
(standard output if there is none): of all that its threads and addresses can
be renumbered to, the least, compared byte by byte. Records of one class have
one representative.

Events keep their numbers and a record its name, so cases that list their
events otherwise or have other names are not one class. What lies behind the
record in a file is left aside. In a file's name a byte that is not printable
is shown as \\x and two digits, a space as \\x20 and a backslash as two.

The exit status is 0; 1 if a file can't be read as a record, and the others are
still grouped; 2 if it is called in another way.
";

fn main() -> ExitCode {
    called(USAGE, |words| match *words {
        [word, source] if word == "--write" => write(source, None),
        [word, source, target] if word == "--write" => write(source, Some(target)),
        [] => wrong_call(USAGE),
        _ if words.iter().any(is_option) => wrong_call(USAGE),
        _ => group(words),
    })
}

/// The records of one class.
struct Class {
    name: String,
    files: Vec<String>,
}

/// Prints a line for each class, and tells of the files that have none.
fn group(files: &[&OsStr]) -> ExitCode {
    let mut classes: Vec<Class> = Vec::new();
    let mut places: BTreeMap<Vec<u8>, usize> = BTreeMap::new();
    let mut all_read = true;
    for file in files {
        match least(file) {
            Ok(record) => {
                let name = name_of(&record);
                let place = *places.entry(record).or_insert(classes.len());
                if place == classes.len() {
                    let files = Vec::new();
                    classes.push(Class { name, files });
                }
                classes[place].files.push(shown(file));
            }
            Err(message) => {
                eprintln!("{message}");
                all_read = false;
            }
        }
    }
    let line = |class: Class| format!("{}: {}\n", class.name, class.files.join(" "));
    let lines: String = classes.into_iter().map(line).collect();
    match put(lines.as_bytes(), None) {
        Ok(()) if !all_read => ExitCode::from(BAD_FILE),
        outcome => status(outcome),
    }
}

fn write(source: &OsStr, target: Option<&OsStr>) -> ExitCode {
    status(least(source).and_then(|record| put(&record, target)))
}

/// The representative of a file's record.
fn least(file: &OsStr) -> Result<Vec<u8>, String> {
    let source = source_of(file);
    let bytes = told(&source, bytes_of(file))?;
    told(&source, representative(&bytes))
}
