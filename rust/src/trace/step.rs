//! The steps of a trace one by one, and why one is not enabled, in words.

use super::Steps;
use std::fmt;

/// The class of a barrier.
#[derive(Clone, Copy, Debug, PartialEq, Eq)]
pub enum BarrierClass {
    Sync = 0,
    Lwsync = 1,
}

impl fmt::Display for BarrierClass {
    fn fmt(&self, f: &mut fmt::Formatter) -> fmt::Result {
        f.write_str(match self {
            BarrierClass::Sync => "sync",
            BarrierClass::Lwsync => "lwsync",
        })
    }
}

/// A step of the storage subsystem. Writes and barriers go by their numbers, each from 0 as
/// accepted.
#[derive(Clone, Copy, Debug, PartialEq, Eq)]
pub enum Step {
    /// It accepts a write of a value to an address, which becomes that write.
    AcceptWrite {
        write: usize,
        thread: usize,
        address: usize,
        value: u32,
    },
    /// It accepts a barrier, which becomes that barrier.
    AcceptBarrier {
        barrier: usize,
        thread: usize,
        class: BarrierClass,
    },
    /// It propagates a write to a thread.
    PropagateWrite { write: usize, thread: usize },
    /// It propagates a barrier to a thread.
    PropagateBarrier { barrier: usize, thread: usize },
    /// It commits the first write to be before the second in coherence order.
    Commit { first: usize, second: usize },
    /// It answers a thread's read of an address with a value.
    Respond {
        thread: usize,
        address: usize,
        value: u32,
    },
    /// It acknowledges a sync to its thread.
    Acknowledge { barrier: usize },
}

impl Steps {
    pub const ACCEPT_WRITE: u8 = 1;
    pub const ACCEPT_BARRIER: u8 = 2;
    pub const PROPAGATE_WRITE: u8 = 3;
    pub const PROPAGATE_BARRIER: u8 = 4;
    pub const COMMIT: u8 = 5;
    pub const RESPOND: u8 = 6;
    pub const ACKNOWLEDGE: u8 = 7;

    /// The steps one by one. A kind that there is not, which no trace that was read has, ends them.
    pub fn list(&self) -> Vec<Step> {
        let (mut writes, mut barriers) = (0, 0);
        let kinds = self.kind.iter().take(self.steps);
        let numbered = kinds.enumerate().map_while(|(i, &kind)| {
            let step = self.step(i, writes, barriers)?;
            writes += usize::from(kind == Steps::ACCEPT_WRITE);
            barriers += usize::from(kind == Steps::ACCEPT_BARRIER);
            Some(step)
        });
        numbered.collect()
    }

    /// Step i behind steps that accept as many writes and barriers.
    fn step(&self, i: usize, writes: usize, barriers: usize) -> Option<Step> {
        let (first, second) = (self.first[i].into(), self.second[i].into());
        let value = self.value[i];
        Some(match self.kind[i] {
            Steps::ACCEPT_WRITE => Step::AcceptWrite {
                write: writes,
                thread: first,
                address: second,
                value,
            },
            Steps::ACCEPT_BARRIER => Step::AcceptBarrier {
                barrier: barriers,
                thread: first,
                class: match second {
                    0 => BarrierClass::Sync,
                    _ => BarrierClass::Lwsync,
                },
            },
            Steps::PROPAGATE_WRITE => Step::PropagateWrite {
                write: first,
                thread: second,
            },
            Steps::PROPAGATE_BARRIER => Step::PropagateBarrier {
                barrier: first,
                thread: second,
            },
            Steps::COMMIT => Step::Commit { first, second },
            Steps::RESPOND => Step::Respond {
                thread: first,
                address: second,
                value,
            },
            Steps::ACKNOWLEDGE => Step::Acknowledge { barrier: first },
            _ => return None,
        })
    }
}

impl fmt::Display for Step {
    fn fmt(&self, f: &mut fmt::Formatter) -> fmt::Result {
        match *self {
            Step::AcceptWrite {
                write,
                thread,
                address,
                value,
            } => write!(
                f,
                "accept write {write} by thread {thread}: {value} to address {address}"
            ),
            Step::AcceptBarrier {
                barrier,
                thread,
                class,
            } => {
                write!(f, "accept barrier {barrier} by thread {thread}: {class}")
            }
            Step::PropagateWrite { write, thread } => {
                write!(f, "propagate write {write} to thread {thread}")
            }
            Step::PropagateBarrier { barrier, thread } => {
                write!(f, "propagate barrier {barrier} to thread {thread}")
            }
            Step::Commit { first, second } => {
                write!(f, "commit write {first} before write {second}")
            }
            Step::Respond {
                thread,
                address,
                value,
            } => write!(f, "read by thread {thread}: {value} from address {address}"),
            Step::Acknowledge { barrier } => write!(f, "acknowledge barrier {barrier}"),
        }
    }
}

/// A condition on a step that fails, by its number among those of the step's kind, as in `litmus.h`.
#[derive(Clone, Copy, Debug, PartialEq, Eq)]
pub struct StepCondition {
    pub step: Step,
    pub number: u32,
}

impl StepCondition {
    /// Why the step is not enabled, in words.
    pub fn words(&self) -> String {
        match (self.step, self.number) {
            (Step::PropagateWrite { write, thread }, number) => write_words(write, thread, number),
            (Step::PropagateBarrier { barrier, thread }, number) => {
                barrier_words(barrier, thread, number)
            }
            (Step::Commit { first, second }, number) => commit_words(first, second, number),
            (
                Step::Respond {
                    thread,
                    address,
                    value,
                },
                1,
            ) => format!(
                "thread {thread} reads the most recent write to address {address} that has been \
                 propagated to it, or else the initial value, and that is not {value}"
            ),
            (Step::Acknowledge { barrier }, number) => acknowledge_words(barrier, number),
            _ => NO_SUCH_CONDITION.to_string(),
        }
    }

    /// What the condition is on.
    fn subject(&self) -> &'static str {
        match self.step {
            Step::AcceptWrite { .. } => "accepting a write",
            Step::AcceptBarrier { .. } => "accepting a barrier",
            Step::PropagateWrite { .. } => "propagating a write",
            Step::PropagateBarrier { .. } => "propagating a barrier",
            Step::Commit { .. } => "a coherence commitment",
            Step::Respond { .. } => "a read response",
            Step::Acknowledge { .. } => "acknowledging a sync",
        }
    }
}

const NO_SUCH_CONDITION: &str = "there is no such condition";

fn write_words(write: usize, thread: usize, number: u32) -> String {
    match number {
        1 => format!("write {write} has already been propagated to thread {thread}"),
        2 => format!(
            "write {write} is not coherence-after every write to its address that has already \
             been propagated to thread {thread}"
        ),
        3 => format!(
            "a barrier that comes before write {write} in its own thread's list has not been \
             propagated to thread {thread}"
        ),
        _ => NO_SUCH_CONDITION.to_string(),
    }
}

fn barrier_words(barrier: usize, thread: usize, number: u32) -> String {
    match number {
        1 => format!("barrier {barrier} has already been propagated to thread {thread}"),
        2 => format!(
            "a write that comes before barrier {barrier} in its own thread's list (Group A) has not \
             been propagated to thread {thread}, nor has a coherence successor of it"
        ),
        _ => NO_SUCH_CONDITION.to_string(),
    }
}

fn commit_words(first: usize, second: usize, number: u32) -> String {
    match number {
        1 => format!("writes {first} and {second} are to different addresses"),
        2 => format!("writes {first} and {second} are already related by coherence"),
        3 if first == second => "a write can't be before itself".to_string(),
        3 => format!(
            "with write {first} before write {second} there is a cycle of coherence and of writes \
             that a barrier separates"
        ),
        _ => NO_SUCH_CONDITION.to_string(),
    }
}

fn acknowledge_words(barrier: usize, number: u32) -> String {
    match number {
        1 => format!("barrier {barrier} is an lwsync, or has already been acknowledged"),
        2 => format!("barrier {barrier} has not been propagated to every thread"),
        _ => NO_SUCH_CONDITION.to_string(),
    }
}

impl fmt::Display for StepCondition {
    fn fmt(&self, f: &mut fmt::Formatter) -> fmt::Result {
        let (number, subject) = (self.number, self.subject());
        write!(f, "condition {number} on {subject} fails: {}", self.words())
    }
}
