//! What the calls answer: the library's own answer, and the types that say it.

use crate::{Case, ADDRESSES, FIRST_RULE, RULES};
use std::{fmt, ops};

/// What the library answers, as in `litmus.h`. Fields that do not apply are 0.
#[repr(C)]
#[derive(Clone, Copy, Debug, Default, PartialEq, Eq)]
pub struct Answer {
    /// 0, or what is wrong; [`meaning`] says it in words.
    pub number: u32,
    /// Of a record under 1 to 4, the byte where the faulty number starts; under 23, the name's first
    /// byte that is not printable; under 9, the flag. Of an area's log, from the area's start.
    pub place: u64,
    /// Under 0 and 11 to 18, how many bytes the record takes; of an append or a repair under 0, how
    /// many stores were made.
    pub length: u64,
    /// When an execution is accepted, what each address holds at the end.
    pub finals: [u32; ADDRESSES],
}

/// An answer and its case, which is [`Case::empty`] where the answer is a refusal.
#[repr(C)]
#[derive(Clone, Copy, Debug, PartialEq, Eq)]
pub struct CaseAnswer {
    pub answer: Answer,
    pub case: Case,
}

/// A part of the record: where it starts, and how many bytes it has.
#[repr(C)]
#[derive(Clone, Copy, Debug, PartialEq, Eq)]
pub struct Part {
    pub at: u64,
    pub length: u64,
}

impl Part {
    /// The bytes that it names, which the record has.
    pub(crate) fn of(self, record: &[u8]) -> &[u8] {
        let at = self.at as usize;
        &record[at..at + self.length as usize]
    }
}

/// One of two records, as in `litmus.h`.
#[repr(C)]
#[derive(Clone, Copy, Debug, PartialEq, Eq)]
pub struct Choice {
    /// 1 for the first, 2 for the second, 0 for neither.
    pub which: u32,
    /// How many bytes that record takes.
    pub length: u64,
}

/// What a number means, in words.
pub fn meaning(number: u32) -> &'static str {
    match number {
        0 => "accepted, or done",
        1 => "the bytes end inside a number or the name",
        2 => "a number has too many groups, or is not in its shortest form",
        3 => "a number is outside its range",
        4 => "a dependency, a write order entry or a pair may not stand there",
        5 => "not a permutation of the case's labels",
        6 => "too little room in the buffer from the given place or in the area, or a count of the tally is full",
        7 => "no such model",
        8 => "bytes behind the last finished frame are not FF; a repair clears them",
        9 => "a frame's flag is neither 00 nor FF",
        11 => "a thread's order is not irreflexive and transitive",
        12 => "a thread's order leaves two of its own events unordered",
        13 => "a thread's order breaks its program order at a barrier, on one address or against a dependency",
        14 => "a thread's order of two stores to one address is not the write order's",
        15 => "a load does not hold the initial value, and no store to its address comes before it",
        16 => "a load holds another value than some store to its address, does not come before it, and no other store lies between",
        17 => "two events that a barrier orders, one before it and one after it on its thread, are not in that order for every thread",
        18 => "two events that a barrier orders, one before it and one after a load of a store behind it, are not in that order for every thread",
        21 => "a condition's text is outside the grammar",
        22 => "a condition's text is nested too deep",
        23 => "a byte of the name is not printable ASCII",
        31 => "a step of a trace is not enabled where it stands",
        _ => "no such number",
    }
}

const LAST_RULE: u32 = FIRST_RULE + RULES as u32 - 1;

/// A broken rule of the model, 11 to 18: the lowest, where several are broken.
#[derive(Clone, Copy, Debug, PartialEq, Eq)]
pub struct Rule(pub u32);

impl fmt::Display for Rule {
    fn fmt(&self, f: &mut fmt::Formatter) -> fmt::Result {
        write!(f, "rule {}: {}", self.0, meaning(self.0))
    }
}

/// What each address of a case holds at the end: a slice with as many values as the case has
/// addresses.
#[derive(Clone, Copy, Debug, PartialEq, Eq)]
pub struct Finals {
    values: [u32; ADDRESSES],
    addresses: usize,
}

impl Finals {
    /// The first of the values, which are 0 from there on.
    pub(crate) fn new(values: [u32; ADDRESSES], addresses: usize) -> Finals {
        Finals { values, addresses }
    }
}

impl ops::Deref for Finals {
    type Target = [u32];

    fn deref(&self) -> &[u32] {
        &self.values[..self.addresses]
    }
}

impl fmt::Display for Finals {
    fn fmt(&self, f: &mut fmt::Formatter) -> fmt::Result {
        let values: Vec<String> = self.iter().map(u32::to_string).collect();
        f.write_str(&values.join(" "))
    }
}

/// What judging a readable record, or a case without fault, gives.
#[derive(Clone, Copy, Debug, PartialEq, Eq)]
pub enum Verdict {
    /// Every rule of the model holds: the execution is possible.
    Accepted { length: usize, finals: Finals },
    /// A rule is broken.
    Broken { length: usize, rule: Rule },
}

impl Verdict {
    /// What an answer says of a case, whose addresses are asked for where it is accepted; None where
    /// it is a refusal.
    pub(crate) fn of(answer: Answer, addresses: impl FnOnce() -> usize) -> Option<Verdict> {
        let length = answer.length as usize;
        match answer.number {
            0 => Some(Verdict::Accepted {
                length,
                finals: Finals::new(answer.finals, addresses()),
            }),
            rule @ FIRST_RULE..=LAST_RULE => Some(Verdict::Broken {
                length,
                rule: Rule(rule),
            }),
            _ => None,
        }
    }
}

impl fmt::Display for Verdict {
    fn fmt(&self, f: &mut fmt::Formatter) -> fmt::Result {
        match self {
            Verdict::Accepted { finals, .. } => write!(f, "possible: finals {finals}"),
            Verdict::Broken { rule, .. } => write!(f, "not possible: {rule}"),
        }
    }
}

/// Why a call did nothing: 1 to 9, or 23.
#[derive(Clone, Copy, Debug, PartialEq, Eq)]
pub struct Refusal {
    pub number: u32,
    /// Of a record, the byte where the fault lies, as in [`Answer`], and of a log from its start, which
    /// in an area is the area's; None under 5 to 8, and of a case, which has no bytes.
    pub place: Option<usize>,
}

impl Refusal {
    /// Of bytes: only some numbers have a place.
    pub(crate) fn of_bytes(number: u32, place: u64) -> Refusal {
        let placed = matches!(number, 1..=4 | 9 | 23);
        Refusal {
            number,
            place: placed.then_some(place as usize),
        }
    }

    /// Of a call on a case.
    pub(crate) fn of_case(answer: Answer) -> Refusal {
        Refusal {
            number: answer.number,
            place: None,
        }
    }
}

/// Of a call on a record.
impl From<Answer> for Refusal {
    fn from(answer: Answer) -> Refusal {
        Refusal::of_bytes(answer.number, answer.place)
    }
}

impl fmt::Display for Refusal {
    fn fmt(&self, f: &mut fmt::Formatter) -> fmt::Result {
        write!(f, "refused with {}: {}", self.number, meaning(self.number))?;
        match self.place {
            Some(place) => write!(f, " (byte {place})"),
            None => Ok(()),
        }
    }
}

impl std::error::Error for Refusal {}
