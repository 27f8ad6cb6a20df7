//! Appends the records in some files to an area. Each is first cut short of its flag, as by a power
//! failure, and repaired.

use litmus::{name, Area, Refusal};
use std::error::Error;
use std::{env, fs};

/// Prints how many stores were made, and the names of the records that are found then.
fn tell(stores: usize, area: &Area) -> Result<(), Refusal> {
    println!("after {stores} stores:");
    for record in area.records() {
        println!("    {}", String::from_utf8_lossy(name(record?)));
    }
    Ok(())
}

fn main() -> Result<(), Box<dyn Error>> {
    let files: Vec<String> = env::args().skip(1).collect();
    if files.is_empty() {
        return Err("usage: keep_an_area FILE ..".into());
    }
    let mut bytes = vec![Area::BLANK; 65_536];
    let mut area = Area::new(&mut bytes);
    for file in files {
        let record = fs::read(file)?;
        let length = litmus::read(&record)?;
        tell(area.append_some(&record, length as u64)?, &area)?;
        area.repair()?;
        tell(area.append(&record)?, &area)?;
    }
    Ok(())
}
