//! Keeps an area in a file: a log whose records survive a power failure.

#[path = "../shared/call.rs"]
mod call;
#[path = "../shared/files.rs"]
mod files;
mod input;
mod kept;
#[path = "../shared/name.rs"]
mod name;

use call::{called, is_option, wrong_call};
use files::{put, shown, status, told};
use input::Input;
use kept::{create, walk, Kept};
use litmus::Area;
use name::name_of;
use std::error::Error;
use std::ffi::OsStr;
use std::fs;
use std::iter;
use std::process::ExitCode;

const USAGE: &str = "\
usage: area new FILE SIZE
       area append FILE RECORD..
       area repair FILE
       area list FILE
       area records FILE

Keeps a log of records in an area: a file of fixed size that starts as all FF.
A frame is a flag byte and a record. The flag stays FF until the record is
safely in FILE, and then becomes 00. So the power may go at any moment: all
records that were appended are found again, and no part of another.

  new      makes FILE with SIZE bytes; it must not be there yet
  append   appends the record at the front of each RECORD file (- is standard
           input, of which all records are appended), and prints a line after
           each that is safely in FILE; the first that fails ends it
  repair   clears what an append that was cut has left behind the last finished
           frame, and prints how many bytes; it may be cut itself
  list     prints a line for each record: the place of its frame, its bytes and
           its name; then where the log ends, how many bytes are free, and how
           many of these are not FF
  records  writes the records back to back to standard output, for judge_log

FILE is stored to byte by byte, and synced before each flag and after it. Only
one program may use FILE at a time. In a file's name a byte that is not
printable is shown as \\x and two digits, a space as \\x20 and a backslash as
two.

The exit status is 0; 1 if something can't be read or done; 2 if it is called
in another way.
";

fn main() -> ExitCode {
    called(USAGE, |words| match *words {
        [command, file, ref rest @ ..] => match outcome(command, file, rest) {
            Some(outcome) => status(outcome),
            None => wrong_call(USAGE),
        },
        _ => wrong_call(USAGE),
    })
}

/// What a command on a file comes to; None if it is a wrong call.
fn outcome(command: &OsStr, file: &OsStr, rest: &[&OsStr]) -> Option<Result<(), String>> {
    if is_option(&file) || rest.iter().any(is_option) {
        return None;
    }
    match (command.to_str()?, rest) {
        ("new", [size]) => {
            let size = size.to_str()?.parse().ok()?;
            Some(told(&shown(file), create(file.as_ref(), size)))
        }
        ("append", [_, ..]) => Some(append(file, rest)),
        ("repair", []) => Some(repair(file)),
        ("list", []) => Some(list(file)),
        ("records", []) => Some(give(file)),
        _ => None,
    }
}

fn opened(file: &OsStr) -> Result<Kept, String> {
    told(&shown(file), Kept::open(file.as_ref()))
}

fn append(file: &OsStr, sources: &[&OsStr]) -> Result<(), String> {
    let mut kept = opened(file)?;
    for (source, record) in sources.iter().flat_map(|source| offered(source)) {
        let record = told(&source, record)?;
        let failure = format!("{}: {source} can't be appended", shown(file));
        let place = told(&failure, kept.append(&record))?;
        let (name, length) = (name_of(&record), record.len());
        let line = format!("appended {name}, {length} bytes, at byte {place}\n");
        put(line.as_bytes(), None)?;
    }
    Ok(())
}

/// A record, and where messages say that it is from.
type Offer = (String, Result<Vec<u8>, Box<dyn Error>>);

/// The records of standard input, or the one at the front of a file.
fn offered(source: &OsStr) -> Box<dyn Iterator<Item = Offer>> {
    if source != "-" {
        return Box::new(iter::once((shown(source), front(source))));
    }
    let input = (1..).zip(Input::default());
    Box::new(input.map(|(i, record)| (format!("standard input, record {i}"), record)))
}

fn front(file: &OsStr) -> Result<Vec<u8>, Box<dyn Error>> {
    let mut bytes = fs::read(file)?;
    bytes.truncate(litmus::read(&bytes)?);
    Ok(bytes)
}

fn repair(file: &OsStr) -> Result<(), String> {
    let cleared = told(&shown(file), opened(file)?.repair())?;
    put(format!("cleared {cleared} bytes\n").as_bytes(), None)
}

fn list(file: &OsStr) -> Result<(), String> {
    let area = told(&shown(file), fs::read(file))?;
    let mut lines = String::new();
    let end = walk(&area, |place, record| {
        let (length, name) = (record.len(), name_of(record));
        lines += &format!("byte {place}: {length} bytes, {name}\n");
    });
    lines += &end.map_or(String::new(), |end| ending(&area, end));
    put(lines.as_bytes(), None)?;
    told(&shown(file), end.map(drop))
}

/// The line about what lies behind the last finished frame.
fn ending(area: &[u8], end: usize) -> String {
    let free = &area[end..];
    let line = format!("end at byte {end}: {} bytes free", free.len());
    match free.iter().filter(|&&byte| byte != Area::BLANK).count() {
        0 => line + "\n",
        count => format!("{line}, {count} of them not FF: 'area repair' clears these\n"),
    }
}

/// Writes the records to standard output.
fn give(file: &OsStr) -> Result<(), String> {
    let area = told(&shown(file), fs::read(file))?;
    let mut log = Vec::new();
    let end = walk(&area, |_, record| log.extend_from_slice(record));
    put(&log, None)?;
    told(&shown(file), end.map(drop))
}
