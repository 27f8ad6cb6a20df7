//! Judges the record in a file under both models.

use litmus::{judge, name, Model};
use std::error::Error;
use std::{env, fs};

fn main() -> Result<(), Box<dyn Error>> {
    let file = env::args().nth(1).ok_or("usage: judge_one FILE")?;
    let record = fs::read(file)?;
    println!("{}", String::from_utf8_lossy(name(&record)));
    for model in [Model::PpcW, Model::PpcS] {
        println!("{model}: {}", judge(&record, model)?);
    }
    Ok(())
}
