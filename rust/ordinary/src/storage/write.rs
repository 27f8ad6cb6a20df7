//! A trace to bytes.

use super::{Step, Trace};
use crate::write::number;

/// The numbers of a trace, in its bytes' order.
pub fn trace_numbers(trace: &Trace) -> Vec<u32> {
    let mut all = vec![trace.threads as u32, trace.initial.len() as u32];
    all.extend(trace.initial.iter());
    all.push(trace.steps.len() as u32);
    for &step in &trace.steps {
        all.push(step.kind() as u32);
        all.extend(step.fields());
    }
    all
}

impl Step {
    /// The fields in their order.
    pub fn fields(self) -> Vec<u32> {
        let label = |label: usize| label as u32;
        match self {
            Step::AcceptWrite {
                thread,
                address,
                value,
            }
            | Step::Respond {
                thread,
                address,
                value,
            } => vec![label(thread), label(address), value],
            Step::AcceptBarrier { thread, class } => vec![label(thread), label(class)],
            Step::PropagateWrite { write, thread } => vec![label(write), label(thread)],
            Step::PropagateBarrier { barrier, thread } => vec![label(barrier), label(thread)],
            Step::Commit { first, second } => vec![label(first), label(second)],
            Step::Acknowledge { barrier } => vec![label(barrier)],
        }
    }
}

pub fn trace_bytes(trace: &Trace) -> Vec<u8> {
    bytes_of(&trace_numbers(trace))
}

/// The bytes of numbers.
pub fn bytes_of(numbers: &[u32]) -> Vec<u8> {
    let numbers = numbers.iter();
    numbers.flat_map(|&value| number(value.into())).collect()
}
