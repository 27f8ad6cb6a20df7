//! Builds a case by hand, judges it under both models and writes its record to a file.

use litmus::{Case, Model, EVENTS};
use std::error::Error;
use std::{env, fs};

/// The addresses.
const SLOT: u8 = 0;
const CURRENT: u8 = 1;

/// Thread 0 stores 800 to a slot that held 500, and behind an lwsync says that slot 1 is current.
/// Thread 1 loads the slot that is current, and gets the old 500.
fn hoist() -> Case {
    let name = b"hoist, dependency";
    let mut case = Case {
        edition: litmus::EDITION_2.into(),
        threads: 2,
        addresses: 2,
        events: 5,
        dependencies: 1,
        name_length: name.len(),
        ..Case::empty()
    };
    case.name[..name.len()].copy_from_slice(name);
    case.initial[usize::from(SLOT)] = 500;
    for (e, (kind, thread, address, value)) in [
        (Case::STORE, 0, SLOT, 800),
        (Case::LWSYNC, 0, 0, 0),
        (Case::STORE, 0, CURRENT, 1),
        (Case::LOAD, 1, CURRENT, 1),
        (Case::LOAD, 1, SLOT, 500),
    ]
    .into_iter()
    .enumerate()
    {
        (case.kind[e], case.thread[e]) = (kind, thread);
        (case.address[e], case.value[e]) = (address, value);
    }
    case.dependency_class[0] = Case::BY_ADDRESS;
    (case.dependency_from[0], case.dependency_to[0]) = (3, 4);
    case.writes[usize::from(SLOT) * EVENTS] = 0;
    case.writes[usize::from(CURRENT) * EVENTS] = 2;
    sees(&mut case, 0, &[0, 1, 2]);
    sees(&mut case, 1, &[0, 2, 3, 4]);
    case
}

/// A thread sees each of these events before all that are listed behind it.
fn sees(case: &mut Case, thread: usize, events: &[usize]) {
    for (i, a) in events.iter().enumerate() {
        for b in &events[i + 1..] {
            case.rows[thread * EVENTS + a] |= 1 << b;
        }
    }
}

fn main() -> Result<(), Box<dyn Error>> {
    let file = env::args().nth(1).ok_or("usage: build_one FILE")?;
    let case = hoist();
    for model in [Model::PpcW, Model::PpcS] {
        println!("{model}: {}", case.judge(model)?);
    }
    fs::write(file, case.record()?)?;
    Ok(())
}
