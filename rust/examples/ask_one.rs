//! Asks under both models whether a condition holds for the record in a file.

use litmus::{condition, Model};
use std::error::Error;
use std::{env, fs};

fn main() -> Result<(), Box<dyn Error>> {
    let mut words = env::args().skip(1);
    let usage = "usage: ask_one TEXT FILE";
    let text = words.next().ok_or(usage)?;
    let record = fs::read(words.next().ok_or(usage)?)?;
    for model in [Model::PpcW, Model::PpcS] {
        match condition(&record, model, text.as_bytes()) {
            Ok(asked) => println!("{model}: {asked}"),
            Err(refusal) => println!("{model}: {refusal}"),
        }
    }
    Ok(())
}
