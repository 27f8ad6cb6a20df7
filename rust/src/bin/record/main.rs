//! Makes a record or a trace out of a short readable text: a record by the proved writer, and of a trace
//! the proved reader makes sure that it can be read.

mod built;

use built::built;
use litmus::read_trace;
use ordinary::storage::trace_bytes;
use ordinary::text;
use std::error::Error;
use std::io::{self, Read, Write};
use std::process::ExitCode;
use std::{env, fs};

const USAGE: &str = "\
usage: record [TEXT [FILE]]

Reads a case or a trace as text from the file TEXT (standard input if there is
none, or -) and writes the case's record, or the trace, to FILE (standard output
if there is none). It must be readable; whether a model accepts the case, or
the trace's steps are enabled, does not matter here.

";

fn main() -> ExitCode {
    let words: Vec<String> = env::args().skip(1).collect();
    let words: Vec<&str> = words.iter().map(String::as_str).collect();
    let outcome = match words[..] {
        ["--help" | "-h"] => {
            print!("{USAGE}{}\n{}", text::HELP, text::trace::HELP);
            Ok(())
        }
        [] => make("-", None),
        [text] if !text.starts_with("--") => make(text, None),
        [text, file] => make(text, Some(file)),
        _ => Err(USAGE.trim().to_string()),
    };
    match outcome {
        Ok(()) => ExitCode::SUCCESS,
        Err(message) => {
            eprintln!("{message}");
            ExitCode::FAILURE
        }
    }
}

fn make(source: &str, target: Option<&str>) -> Result<(), String> {
    let shown = if source == "-" {
        "standard input"
    } else {
        source
    };
    let text = text_of(source).map_err(|fault| format!("{shown}: {fault}"))?;
    let bytes = made(&text).map_err(|fault| format!("{shown}: {fault}"))?;
    let written = match target {
        Some(file) => fs::write(file, bytes),
        None => io::stdout().write_all(&bytes),
    };
    written.map_err(|fault| format!("{}: {fault}", target.unwrap_or("standard output")))
}

/// The bytes of the text's trace, or the record of its case.
fn made(text: &str) -> Result<Vec<u8>, Box<dyn Error>> {
    if !text::trace::is_trace(text) {
        return Ok(built(&text::parse(text)?).record()?);
    }
    let bytes = trace_bytes(&text::trace::parse(text)?);
    read_trace(&bytes)?;
    Ok(bytes)
}

fn text_of(source: &str) -> io::Result<String> {
    if source != "-" {
        return fs::read_to_string(source);
    }
    let mut text = String::new();
    io::stdin().read_to_string(&mut text)?;
    Ok(text)
}
