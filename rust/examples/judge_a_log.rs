//! Judges the records in a file under PPCs as they are read, and prints the tally.

use litmus::Log;
use std::env;
use std::error::Error;
use std::fs::File;
use std::io::Read;

fn main() -> Result<(), Box<dyn Error>> {
    let file = env::args().nth(1).ok_or("usage: judge_a_log FILE")?;
    let mut file = File::open(file)?;
    let mut buffer = vec![0; 65_536];
    let mut log = Log::new();
    while !log.has_ended() {
        match file.read(&mut buffer)? {
            0 => break,
            size => log.feed(&buffer[..size]),
        }
    }
    println!("{}", log.finish());
    Ok(())
}
