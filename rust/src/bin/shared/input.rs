//! What the programs on files read.

use crate::files::shown;
use std::ffi::OsStr;
use std::fs;
use std::io::{self, Read};

/// What messages call a file; - is standard input.
pub fn source_of(file: &OsStr) -> String {
    match file == "-" {
        true => "standard input".to_string(),
        false => shown(file),
    }
}

pub fn bytes_of(file: &OsStr) -> io::Result<Vec<u8>> {
    if file != "-" {
        return fs::read(file);
    }
    let mut bytes = Vec::new();
    io::stdin().read_to_end(&mut bytes)?;
    Ok(bytes)
}
