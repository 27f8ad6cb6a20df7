//! A quick reader and judge: an event set is a `u64`, and an order has a row of bits an event, and a
//! column. Beside them, representatives without a search.
//!
//! It is the benchmark's yardstick: ordinary Rust as one writes it for speed, safe and without
//! vector instructions by hand.

mod barriers;
mod columns;
mod judged;
mod read;
mod representative;

pub use representative::representative;

use crate::answer::{Answer, Refusal, MODEL};
use crate::case::Kind;
use crate::condition::{asked, Asked, Outcome};
use crate::judge::{PPCS, PPCW};
use crate::limits::{ADDRESSES, EVENTS, THREADS};
use judged::verdict;

type Set = u64;

const LOAD: u8 = Kind::Load as u8;
const STORE: u8 = Kind::Store as u8;
const SYNC: u8 = Kind::Sync as u8;

/// An order: for each event, the set of those after it. Or its columns: the set of those before it.
type Rows = [Set; EVENTS];

#[derive(Clone, Copy, Default)]
struct Event {
    kind: u8,
    thread: u8,
    address: u8,
    value: u32,
}

/// A case in fixed room.
pub struct Case {
    threads: usize,
    addresses: usize,
    count: usize,
    initial: [u32; ADDRESSES],
    events: [Event; EVENTS],
    /// For each event, the set of those that depend on it.
    dependents: Rows,
    /// For each address, its stores, and how many.
    written: [[u8; EVENTS]; ADDRESSES],
    stores: [usize; ADDRESSES],
    after: [Rows; THREADS],
    /// How many bytes the record takes.
    pub length: usize,
}

impl Case {
    fn new() -> Case {
        Case {
            threads: 0,
            addresses: 0,
            count: 0,
            initial: [0; ADDRESSES],
            events: [Event::default(); EVENTS],
            dependents: [0; EVENTS],
            written: [[0; EVENTS]; ADDRESSES],
            stores: [0; ADDRESSES],
            after: [[0; EVENTS]; THREADS],
            length: 0,
        }
    }

    /// How many bytes the record takes.
    pub fn length(&self) -> usize {
        self.length
    }

    fn events(&self) -> &[Event] {
        &self.events[..self.count]
    }

    /// The stores to an address from first to last.
    fn written(&self, address: usize) -> &[u8] {
        &self.written[address][..self.stores[address]]
    }
}

/// Reads the record at the front of the bytes.
pub fn read(bytes: &[u8]) -> Result<Case, Refusal> {
    let mut case = Case::new();
    read::read_into(&mut case, bytes)?;
    Ok(case)
}

/// Judges the record at the front of the bytes under a model.
pub fn judge(bytes: &[u8], model: u64) -> Answer {
    let mut case = Case::new();
    match read_for(&mut case, bytes, model) {
        Ok(()) => judged(&case, model),
        Err(refusal) => refusal.into(),
    }
}

/// Asks a condition of the record at the front of the bytes, under a model.
pub fn ask(bytes: &[u8], model: u64, text: &[u8]) -> Asked {
    let mut case = Case::new();
    match read_for(&mut case, bytes, model) {
        Ok(()) => asked(judged(&case, model), || outcome(&case), text),
        Err(refusal) => Asked {
            answer: refusal.into(),
            holds: false,
        },
    }
}

/// Reads the record if there is such a model.
fn read_for(case: &mut Case, bytes: &[u8], model: u64) -> Result<(), Refusal> {
    if model != PPCW && model != PPCS {
        let (number, place) = (MODEL, 0);
        return Err(Refusal { number, place });
    }
    read::read_into(case, bytes)
}

fn judged(case: &Case, model: u64) -> Answer {
    let number = verdict(case, model);
    let finals = if number == 0 {
        finals(case)
    } else {
        [0; ADDRESSES]
    };
    Answer {
        number,
        finals,
        ..Answer::done(case.length)
    }
}

fn outcome(case: &Case) -> Outcome {
    let events = case.events().iter();
    Outcome {
        finals: finals(case)[..case.addresses].to_vec(),
        loaded: events
            .map(|e| (e.kind == LOAD).then_some(e.value))
            .collect(),
    }
}

fn finals(case: &Case) -> [u32; ADDRESSES] {
    let mut finals = case.initial;
    for (address, last) in finals[..case.addresses].iter_mut().enumerate() {
        if let [.., store] = *case.written(address) {
            *last = case.events[store as usize].value;
        }
    }
    finals
}

fn has(set: Set, e: usize) -> bool {
    set >> e & 1 == 1
}

/// The members of a set, rising.
#[inline(always)]
fn bits(mut set: Set) -> impl Iterator<Item = usize> {
    std::iter::from_fn(move || {
        if set == 0 {
            return None;
        }
        let e = first(set);
        set &= set - 1;
        Some(e)
    })
}

/// The least member of a set that has one.
#[inline(always)]
fn first(set: Set) -> usize {
    set.trailing_zeros() as usize % EVENTS
}
