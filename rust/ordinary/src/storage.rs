//! Traces of the storage machine: source document 002, sections 4.2 (states) and 4.3 (steps).
//!
//! A trace is read as a whole, and then its steps are taken one after the other as long as each is
//! enabled.

mod list;
mod machine;
mod read;
mod write;

pub use list::List;
pub use machine::{Barrier, Event, Machine, Thread, Write};
pub use read::{part_at, read_trace, Part, Reading};
pub use write::{bytes_of, trace_bytes, trace_numbers};

use crate::answer::{Refusal, DISABLED};
use crate::limits::ADDRESSES;

/// The classes of barriers.
pub const SYNC: usize = 0;
pub const LWSYNC: usize = 1;

/// Writes and barriers are named by their numbers, from 0 as they are accepted.
#[derive(Clone, Copy, Debug, PartialEq, Eq)]
pub enum Step {
    AcceptWrite {
        thread: usize,
        address: usize,
        value: u32,
    },
    AcceptBarrier {
        thread: usize,
        class: usize,
    },
    PropagateWrite {
        write: usize,
        thread: usize,
    },
    PropagateBarrier {
        barrier: usize,
        thread: usize,
    },
    Commit {
        first: usize,
        second: usize,
    },
    Respond {
        thread: usize,
        address: usize,
        value: u32,
    },
    Acknowledge {
        barrier: usize,
    },
}

impl Step {
    /// How many kinds there are; the first is 1.
    pub const KINDS: usize = 7;

    pub fn kind(self) -> usize {
        match self {
            Step::AcceptWrite { .. } => 1,
            Step::AcceptBarrier { .. } => 2,
            Step::PropagateWrite { .. } => 3,
            Step::PropagateBarrier { .. } => 4,
            Step::Commit { .. } => 5,
            Step::Respond { .. } => 6,
            Step::Acknowledge { .. } => 7,
        }
    }

    /// How many conditions steps of a kind have.
    pub fn conditions(kind: usize) -> usize {
        match kind {
            3 | 5 => 3,
            4 | 7 => 2,
            6 => 1,
            _ => 0,
        }
    }
}

#[derive(Clone, Debug, PartialEq, Eq)]
pub struct Trace {
    pub threads: usize,
    /// By address.
    pub initial: List<u32, ADDRESSES>,
    pub steps: Vec<Step>,
}

/// Every field that does not apply is 0.
#[derive(Clone, Copy, Debug, Default, PartialEq, Eq)]
pub struct Answer {
    pub number: u32,
    /// Of the step's conditions the first that fails, from 1 on.
    pub condition: u32,
    pub place: usize,
    /// The first step that is not enabled, from 0 on.
    pub step: usize,
    pub length: usize,
    /// After the last step.
    pub end: Machine,
}

impl From<Refusal> for Answer {
    fn from(refusal: Refusal) -> Answer {
        Answer {
            number: refusal.number,
            place: refusal.place,
            ..Answer::default()
        }
    }
}

/// Judges the trace at the front of the bytes.
pub fn judge_trace(bytes: &[u8]) -> Answer {
    match read_trace(bytes) {
        Ok(Reading { trace, length }) => run(&trace, length),
        Err(refusal) => refusal.into(),
    }
}

/// Takes the steps of a trace that has so many bytes.
fn run(trace: &Trace, length: usize) -> Answer {
    let mut machine = Machine::new(trace.threads, trace.initial);
    for (i, &step) in trace.steps.iter().enumerate() {
        let condition = machine.failing(step);
        if condition != 0 {
            return Answer {
                number: DISABLED,
                condition,
                step: i,
                ..Answer::default()
            };
        }
        machine.take(step);
    }
    Answer {
        length,
        end: machine,
        ..Answer::default()
    }
}
