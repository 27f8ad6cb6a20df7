//! Bytes to a trace.

use super::{Step, Trace, LWSYNC};
use crate::answer::{Refusal, RANGE};
use crate::limits::{ADDRESSES, BARRIERS, STEPS, THREADS, VALUE, WRITES};
use crate::numbers::{refuse, Reader};

/// A trace, and how many bytes it takes.
#[derive(Clone, Debug, PartialEq, Eq)]
pub struct Reading {
    pub trace: Trace,
    pub length: usize,
}

/// Reads the trace at the front of the bytes.
pub fn read_trace(bytes: &[u8]) -> Result<Reading, Refusal> {
    let mut reader = Reader::new(bytes);
    let threads = reader.number(1, THREADS as u32)? as usize;
    let addresses = reader.number(1, ADDRESSES as u32)? as usize;
    let mut trace = Trace {
        threads,
        initial: Default::default(),
        steps: Vec::new(),
    };
    for _ in 0..addresses {
        trace.initial.push(reader.number(0, VALUE)?);
    }
    reader.steps(&mut trace)?;
    let length = reader.place;
    Ok(Reading { trace, length })
}

impl Reader<'_> {
    fn steps(&mut self, trace: &mut Trace) -> Result<(), Refusal> {
        let count = self.number(0, STEPS as u32)? as usize;
        trace.steps.reserve_exact(count);
        let (mut writes, mut barriers) = (0, 0);
        for _ in 0..count {
            let step = self.step(trace, writes, barriers)?;
            writes += usize::from(step.kind() == 1);
            barriers += usize::from(step.kind() == 2);
            trace.steps.push(step);
        }
        Ok(())
    }

    /// The next step, after steps that accept so many writes and barriers.
    fn step(&mut self, trace: &Trace, writes: usize, barriers: usize) -> Result<Step, Refusal> {
        let place = self.place;
        let (threads, addresses) = (trace.threads, trace.initial.len());
        Ok(match self.number(1, Step::KINDS as u32)? {
            1 if writes == WRITES => return refuse(RANGE, place),
            1 => Step::AcceptWrite {
                thread: self.below(threads)?,
                address: self.below(addresses)?,
                value: self.number(0, VALUE)?,
            },
            2 if barriers == BARRIERS => return refuse(RANGE, place),
            2 => Step::AcceptBarrier {
                thread: self.below(threads)?,
                class: self.below(LWSYNC + 1)?,
            },
            3 => Step::PropagateWrite {
                write: self.below(writes)?,
                thread: self.below(threads)?,
            },
            4 => Step::PropagateBarrier {
                barrier: self.below(barriers)?,
                thread: self.below(threads)?,
            },
            5 => Step::Commit {
                first: self.below(writes)?,
                second: self.below(writes)?,
            },
            6 => Step::Respond {
                thread: self.below(threads)?,
                address: self.below(addresses)?,
                value: self.number(0, VALUE)?,
            },
            _ => Step::Acknowledge {
                barrier: self.below(barriers)?,
            },
        })
    }
}

/// Where in a trace a number stands.
#[derive(Clone, Copy, Debug, PartialEq, Eq)]
pub enum Part {
    /// Before the steps.
    Head,
    /// It is a step's kind.
    Kind,
    /// It is a field of a step of that kind.
    Field(usize),
}

/// Where the number at a place stands, all before it being as they should.
pub fn part_at(bytes: &[u8], place: usize) -> Part {
    let mut reader = Reader::new(bytes);
    let mut part = Part::Head;
    let mut left = 2;
    let mut numbers = 0;
    while reader.place < place {
        let number = reader
            .number(0, u32::MAX)
            .expect("a number before the place");
        numbers += 1;
        left -= 1;
        if numbers == 2 {
            left = number as usize + 1;
        } else if part == Part::Kind {
            part = Part::Field(number as usize);
            left = fields(number as usize);
        }
        if left == 0 {
            part = Part::Kind;
            left = 1;
        }
    }
    part
}

/// How many fields steps of a kind have.
fn fields(kind: usize) -> usize {
    match kind {
        1 | 6 => 3,
        7 => 1,
        _ => 2,
    }
}
