//! The records of standard input.

use litmus::read;
use std::error::Error;
use std::io::{self, ErrorKind, Read};

/// How many bytes are asked for at once.
const CHUNK: usize = 65_536;

/// The refusal of bytes that end inside a record.
const ENDS: u32 = 1;

/// The records of standard input, which lie back to back, each as soon as it is whole.
#[derive(Default)]
pub struct Input {
    /// What was read behind the last record.
    bytes: Vec<u8>,
    /// Whether no more bytes follow.
    ended: bool,
}

impl Input {
    fn read_on(&mut self) -> io::Result<()> {
        let mut chunk = [0; CHUNK];
        match io::stdin().read(&mut chunk) {
            Err(fault) if fault.kind() == ErrorKind::Interrupted => {}
            got => {
                let piece = &chunk[..got?];
                self.ended = piece.is_empty();
                self.bytes.extend_from_slice(piece);
            }
        }
        Ok(())
    }
}

impl Iterator for Input {
    type Item = Result<Vec<u8>, Box<dyn Error>>;

    fn next(&mut self) -> Option<Self::Item> {
        loop {
            match read(&self.bytes) {
                Ok(length) => return Some(Ok(self.bytes.drain(..length).collect())),
                Err(refusal) if refusal.number == ENDS && !self.ended => {
                    if let Err(fault) = self.read_on() {
                        return Some(Err(fault.into()));
                    }
                }
                Err(_) if self.bytes.is_empty() => return None,
                Err(refusal) => return Some(Err(refusal.into())),
            }
        }
    }
}
