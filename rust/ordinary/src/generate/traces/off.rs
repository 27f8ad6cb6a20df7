//! Traces with a step that is not enabled, and bytes that are no traces.

use super::ring::ring;
use super::{accepted_trace, any_value, failing_with, mixed_trace, EVEN};
use crate::generate::damage::{change_byte, one_odd_number, BYTE_CHANGES};
use crate::generate::odd::written_otherwise;
use crate::limits::{BARRIERS, STEPS, WRITES};
use crate::random::Random;
use crate::storage::{bytes_of, trace_bytes, trace_numbers, Machine, Step, Trace, SYNC};

/// Bytes of a trace that is accepted, or of one a little off, and now and then bytes behind it.
pub fn any_trace(random: &mut Random) -> Vec<u8> {
    let most = random.pick(&[12, 40, STEPS]);
    let steps = random.from_to(0, most);
    let trace = accepted_trace(random, steps);
    let mut bytes = match random.below(12) {
        0 | 1 => trace_bytes(&trace),
        2..=4 => trace_bytes(&one_step_off(random, trace)),
        5 => trace_bytes(&exchanged(random, trace)),
        6 => trace_bytes(&naming_none(random, trace)),
        7 => trace_bytes(&too_many(random, trace)),
        8 => trace_bytes(&ring(random)),
        _ => damaged(random, &trace),
    };
    if random.once_in(4) {
        let behind = random.below(6);
        bytes.extend(random.bytes(behind));
    }
    bytes
}

/// An accepted trace with a step that is not enabled where it stands.
fn one_step_off(random: &mut Random, trace: Trace) -> Trace {
    let at = random.below(STEPS.min(trace.steps.len() + 1));
    step_off_at(random, trace, at)
}

/// The same, of a given step.
pub fn step_off_at(random: &mut Random, trace: Trace, at: usize) -> Trace {
    let step = not_enabled(random, &state_at(&trace, at));
    with_step(random, trace, at, step)
}

/// The state before a step.
fn state_at(trace: &Trace, at: usize) -> Machine {
    let mut machine = Machine::new(trace.threads, trace.initial);
    let steps = trace.steps[..at].iter();
    steps.for_each(|&step| machine.take(step));
    machine
}

/// Of each condition of each kind alike, as far as there are steps for which it fails first.
fn not_enabled(random: &mut Random, machine: &Machine) -> Step {
    let kinds = 1..=Step::KINDS;
    let conditions = kinds.flat_map(|kind| (1..=Step::conditions(kind)).map(move |c| (kind, c)));
    let step = |(kind, condition)| failing_with(random, machine, kind, condition as u32);
    let steps: Vec<Step> = conditions.filter_map(step).collect();
    random.pick(&steps)
}

/// With a step put in, or in place of one that accepts nothing. If that makes too many, the last is left
/// out.
fn with_step(random: &mut Random, mut trace: Trace, at: usize, step: Step) -> Trace {
    let replaced = trace.steps.get_mut(at).filter(|old| old.kind() > 2);
    match replaced {
        Some(old) if random.once_in(2) => *old = step,
        _ => trace.steps.insert(at, step),
    }
    trace.steps.truncate(STEPS);
    trace
}

/// With two fields of a step exchanged, or two steps.
fn exchanged(random: &mut Random, mut trace: Trace) -> Trace {
    let count = trace.steps.len();
    if count == 0 {
        return trace;
    }
    let at = random.below(count);
    let swapped = swapped(trace.steps[at]);
    if swapped == trace.steps[at] || random.once_in(3) {
        let behind = (at + random.from_to(1, 3)).min(count - 1);
        trace.steps.swap(at, behind);
    } else {
        trace.steps[at] = swapped;
    }
    trace
}

/// The step with its first two fields exchanged.
fn swapped(mut step: Step) -> Step {
    match &mut step {
        Step::AcceptWrite {
            thread, address, ..
        }
        | Step::Respond {
            thread, address, ..
        } => std::mem::swap(thread, address),
        Step::AcceptBarrier { thread, class } => std::mem::swap(thread, class),
        Step::PropagateWrite { write, thread } => std::mem::swap(write, thread),
        Step::PropagateBarrier { barrier, thread } => std::mem::swap(barrier, thread),
        Step::Commit { first, second } => std::mem::swap(first, second),
        Step::Acknowledge { .. } => {}
    }
    step
}

/// With a step that names a write or a barrier that was not accepted before it.
fn naming_none(random: &mut Random, trace: Trace) -> Trace {
    let at = random.below(STEPS.min(trace.steps.len() + 1));
    let machine = state_at(&trace, at);
    let more = random.pick(&[0, 0, 1, 2, 8, 127, 1 << 20]);
    let write = machine.writes.len() + more;
    let barrier = machine.barriers.len() + more;
    let thread = random.below(trace.threads);
    let other = random.below(machine.writes.len().max(1));
    let step = match random.below(5) {
        0 => Step::PropagateWrite { write, thread },
        1 => Step::PropagateBarrier { barrier, thread },
        2 => Step::Commit {
            first: write,
            second: other,
        },
        3 => Step::Commit {
            first: other,
            second: write,
        },
        _ => Step::Acknowledge { barrier },
    };
    with_step(random, trace, at, step)
}

/// With a write or a barrier too many, somewhere, or as many as there may be.
fn too_many(random: &mut Random, mut trace: Trace) -> Trace {
    let (kind, most) = random.pick(&[(1, WRITES), (2, BARRIERS)]);
    trace.steps.truncate(STEPS - most - 1);
    let there = trace
        .steps
        .iter()
        .filter(|step| step.kind() == kind)
        .count();
    let wanted = most + usize::from(!random.once_in(4));
    for _ in there..wanted {
        let thread = random.below(trace.threads);
        let step = match kind {
            1 => Step::AcceptWrite {
                thread,
                address: random.below(trace.initial.len()),
                value: any_value(random),
            },
            _ => Step::AcceptBarrier {
                thread,
                class: SYNC,
            },
        };
        let at = random.below(trace.steps.len() + 1);
        trace.steps.insert(at, step);
    }
    trace
}

/// Bytes that most likely are no trace: cut, with an odd number or with another byte.
fn damaged(random: &mut Random, trace: &Trace) -> Vec<u8> {
    let numbers = trace_numbers(trace);
    let number = any_number_of(random, trace);
    let mut bytes = trace_bytes(trace);
    match random.below(4) {
        0 => {
            let whole = bytes_of(&numbers[..number]).len();
            let next = bytes_of(&numbers[number..=number]).len();
            bytes.truncate(whole + random.below(next));
        }
        1 => {
            let (at, way) = (random.below(bytes.len()), random.below(BYTE_CHANGES));
            change_byte(random, &mut bytes, at, way);
        }
        _ => bytes = one_odd_number(random, &numbers, number).0,
    }
    bytes
}

/// One of a trace's numbers, of any kind of step alike, or from before the steps.
fn any_number_of(random: &mut Random, trace: &Trace) -> usize {
    let head = 3 + trace.initial.len();
    let mut kinds: Vec<usize> = trace.steps.iter().map(|step| step.kind()).collect();
    kinds.push(0);
    kinds.sort();
    kinds.dedup();
    let kind = random.pick(&kinds);
    let mut numbers = Vec::new();
    let mut start = head;
    for step in &trace.steps {
        let end = start + 1 + step.fields().len();
        if step.kind() == kind {
            numbers.extend(start..end);
        }
        start = end;
    }
    match numbers.is_empty() {
        true => random.below(head),
        false => random.pick(&numbers),
    }
}

/// Hands over some traces with each number written otherwise.
pub fn odd_traces(visit: &mut impl FnMut(&[u8])) {
    let mut random = Random::new(51);
    for steps in [0, 1, 2, 12, 40, 60, 80, STEPS] {
        let trace = mixed_trace(&mut random, 3, 3, steps, [EVEN, EVEN]);
        let (bytes, numbers) = (trace_bytes(&trace), trace_numbers(&trace));
        written_otherwise(&bytes, &numbers, WRITES, &mut |_, bytes| visit(bytes));
    }
}
