//! What the calls must answer for a case that is handed without bytes: what they answer for the
//! numbers of its fields in the record's order, but with place 0.

use crate::built::built;
use litmus::Case;
use ordinary::answer::{FORM, MISPLACED, MODEL, RANGE, UNPRINTABLE};
use ordinary::condition::Outcome;
use ordinary::judge::{judge_case, PPCS};
use ordinary::limits::{ADDRESSES, DEPENDENCIES, EVENTS, NAME, SECOND, THREADS};
use ordinary::renumber::renumber_case;
use ordinary::representative::representative_case;
use ordinary::{read, write, Answer};

pub struct Handed {
    /// The record, or the bytes up to the fault and some behind it.
    pub bytes: Vec<u8>,
    /// The case that the fields mean, or the number of their first fault.
    case: Result<ordinary::Case, u32>,
}

impl Handed {
    pub fn new(case: &Case) -> Handed {
        let bytes = bytes(case);
        let case = match read::read(&bytes) {
            Ok(reading) => {
                assert_eq!(write::record(&reading.case), bytes);
                Ok(reading.case)
            }
            Err(refusal) => Err(fault(refusal.number)),
        };
        Handed { bytes, case }
    }

    /// 0, or the number of the first fault.
    pub fn fault(&self) -> u32 {
        self.case.as_ref().err().copied().unwrap_or(0)
    }

    pub fn judge(&self, model: u64) -> Answer {
        match &self.case {
            Ok(case) => judge_case(case, model),
            Err(_) if model > PPCS => Answer::refused(MODEL),
            Err(fault) => Answer::refused(*fault),
        }
    }

    /// What the case's outcome is, or if it has a fault, some other case's.
    pub fn outcome(&self) -> Outcome {
        match &self.case {
            Ok(case) => Outcome::new(case),
            Err(_) => Outcome {
                finals: vec![0],
                loaded: Vec::new(),
            },
        }
    }

    pub fn write(&self, out: &mut [u8], at: u64) -> Answer {
        match &self.case {
            Ok(case) => write::write(case, out, at as usize),
            Err(fault) => Answer::refused(*fault),
        }
    }

    /// The answer, and the case that stands beside it.
    pub fn renumber(&self, q: u64, r: u64) -> (Answer, Case) {
        self.given(|case| renumber_case(case, q, r))
    }

    /// The answer, and the case that stands beside it.
    pub fn representative(&self) -> (Answer, Case) {
        self.given(representative_case)
    }

    /// What a call gives that makes another case.
    fn given(
        &self,
        call: impl Fn(&ordinary::Case) -> Result<ordinary::Case, u32>,
    ) -> (Answer, Case) {
        let case = self.case.as_ref().map_err(|&fault| fault);
        match case.and_then(call) {
            Ok(new) => (Answer::done(write::size(&new)), built(&new)),
            Err(number) => (Answer::refused(number), Case::empty()),
        }
    }
}

/// A field may hold a number that does not fit in a record's groups; it is outside its range.
fn fault(number: u32) -> u32 {
    match number {
        FORM => RANGE,
        RANGE | MISPLACED | UNPRINTABLE => number,
        _ => panic!("the fields make no end"),
    }
}

/// The fields' numbers in the record's order, and the name. What a count outside its range counts
/// ends with its array.
fn bytes(case: &Case) -> Vec<u8> {
    let mut numbers = vec![case.edition, case.threads as u64, case.addresses as u64];
    let initial = &case.initial[..case.addresses.min(ADDRESSES)];
    numbers.extend(initial.iter().map(|&value| u64::from(value)));
    numbers.push(case.events as u64);
    numbers.extend(events(case));
    if case.edition == u64::from(SECOND) {
        numbers.push(case.dependencies as u64);
        numbers.extend(dependencies(case));
    }
    for x in 0..case.addresses.min(ADDRESSES) {
        numbers.extend(writes(case, x));
    }
    for p in 0..case.threads.min(THREADS) {
        numbers.extend(order(case, p));
    }
    numbers.push(case.name_length as u64);
    let mut bytes: Vec<u8> = numbers.into_iter().flat_map(write::number).collect();
    bytes.extend(&case.name[..case.name_length.min(NAME)]);
    bytes
}

fn events(case: &Case) -> Vec<u64> {
    let mut numbers = Vec::new();
    for e in 0..case.events.min(EVENTS) {
        numbers.extend([case.kind[e], case.thread[e]].map(u64::from));
        if ![Case::SYNC, Case::LWSYNC].contains(&case.kind[e]) {
            numbers.extend([case.address[e].into(), u64::from(case.value[e])]);
        }
    }
    numbers
}

fn dependencies(case: &Case) -> impl Iterator<Item = u64> + '_ {
    let arrays = [
        &case.dependency_class,
        &case.dependency_from,
        &case.dependency_to,
    ];
    let all = 0..case.dependencies.min(DEPENDENCIES);
    all.flat_map(move |d| arrays.map(|array| array[d].into()))
}

/// As many entries as there are stores to address x.
pub fn writes(case: &Case, x: usize) -> impl Iterator<Item = u64> + '_ {
    let all = 0..case.events.min(EVENTS);
    let stores = all.filter(move |&e| case.kind[e] == Case::STORE);
    let stores = stores.filter(move |&e| usize::from(case.address[e]) == x);
    let listed = case.writes[x * EVENTS..].iter().map(|&e| e.into());
    listed.take(stores.count())
}

/// The count and the pairs of thread p's order, of events below the count alone.
fn order(case: &Case, p: usize) -> Vec<u64> {
    let count = case.events.min(EVENTS);
    let mut pairs = Vec::new();
    for a in 0..count {
        let row = case.rows[p * EVENTS + a];
        let after = (0..count).filter(|b| row >> b & 1 == 1);
        pairs.extend(after.flat_map(|b| [a as u64, b as u64]));
    }
    pairs.insert(0, pairs.len() as u64 / 2);
    pairs
}
