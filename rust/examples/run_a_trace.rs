//! Runs the trace in a file and says what it comes to.

use litmus::{read_trace, trace, Traced};
use std::error::Error;
use std::{env, fs};

fn main() -> Result<(), Box<dyn Error>> {
    let file = env::args().nth(1).ok_or("usage: run_a_trace FILE")?;
    let bytes = fs::read(file)?;
    let (steps, _) = read_trace(&bytes)?;
    for step in steps.list() {
        println!("{step}");
    }
    let traced = trace(&bytes)?;
    println!("{traced}");
    if let Traced::Accepted { end, .. } = traced {
        println!("{end}");
    }
    Ok(())
}
