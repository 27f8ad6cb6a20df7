//! Traces of the storage machine.

mod off;
mod ring;

pub use off::{any_trace, odd_traces, step_off_at};

use super::value_bit;
use crate::limits::{ADDRESSES, BARRIERS, THREADS, VALUE, WRITES};
use crate::random::Random;
use crate::storage::{List, Machine, Step, Trace, LWSYNC};

/// How often each kind of step is tried, from the first kind on. A read response is always enabled, and
/// has to be among them.
pub type Mixture = [usize; Step::KINDS];

/// Some of each kind.
const EVEN: Mixture = [2, 1, 3, 2, 2, 1, 1];

/// The mixtures of the first half of a trace and of its second.
const HALVES: [[Mixture; 2]; 6] = [
    [EVEN, EVEN],
    [[6, 4, 0, 1, 0, 1, 0], [0, 0, 1, 1, 8, 1, 1]],
    [[3, 1, 2, 1, 8, 1, 1], EVEN],
    [[2, 2, 6, 6, 2, 1, 2], [2, 2, 6, 6, 2, 1, 2]],
    [[4, 4, 2, 2, 2, 1, 2], [1, 1, 6, 6, 6, 1, 4]],
    [[1, 1, 1, 1, 1, 8, 1], EVEN],
];

/// A trace of so many steps, all of which are enabled.
pub fn accepted_trace(random: &mut Random, steps: usize) -> Trace {
    let threads = random.from_to(1, THREADS);
    let addresses = random.from_to(1, ADDRESSES);
    let halves = random.pick(&HALVES);
    mixed_trace(random, threads, addresses, steps, halves)
}

/// As [`accepted_trace`], its first half in one mixture and its second half in another one.
pub fn mixed_trace(
    random: &mut Random,
    threads: usize,
    addresses: usize,
    steps: usize,
    halves: [Mixture; 2],
) -> Trace {
    let initial: List<u32, ADDRESSES> = (0..addresses).map(|_| any_value(random)).collect();
    let mut machine = Machine::new(threads, initial);
    let mut taken = |i: usize| {
        let step = enabled(random, &machine, halves[2 * i / steps]);
        machine.take(step);
        step
    };
    Trace {
        threads,
        initial,
        steps: (0..steps).map(&mut taken).collect(),
    }
}

fn enabled(random: &mut Random, machine: &Machine, mixture: Mixture) -> Step {
    loop {
        let kind = kind(random, mixture);
        if let Some(step) = failing_with(random, machine, kind, 0) {
            return step;
        }
    }
}

fn kind(random: &mut Random, mixture: Mixture) -> usize {
    let mut left = random.below(mixture.iter().sum());
    let ends_here = |&times: &usize| {
        let here = left < times;
        left = left.saturating_sub(times);
        here
    };
    1 + mixture.iter().position(ends_here).expect("a kind")
}

/// A step of a kind of which that condition is the first that fails, or none if it is 0.
fn failing_with(
    random: &mut Random,
    machine: &Machine,
    kind: usize,
    condition: u32,
) -> Option<Step> {
    let mut steps = steps(random, machine, kind);
    steps.retain(|&step| machine.failing(step) == condition);
    (!steps.is_empty()).then(|| random.pick(&steps))
}

/// Steps of a kind that may stand next in a trace, enabled or not: all that propagate, acknowledge, or
/// commit two writes; one that commits a write before itself; and some of the other kinds.
fn steps(random: &mut Random, machine: &Machine, kind: usize) -> Vec<Step> {
    let [threads, writes, barriers] = [
        machine.threads.len(),
        machine.writes.len(),
        machine.barriers.len(),
    ];
    let thread = random.below(threads);
    match kind {
        1 if writes == WRITES => Vec::new(),
        1 => vec![Step::AcceptWrite {
            thread,
            address: random.below(machine.initial.len()),
            value: any_value(random),
        }],
        2 if barriers == BARRIERS => Vec::new(),
        2 => vec![Step::AcceptBarrier {
            thread,
            class: random.below(LWSYNC + 1),
        }],
        3 => pairs(writes, threads)
            .map(|(write, thread)| Step::PropagateWrite { write, thread })
            .collect(),
        4 => pairs(barriers, threads)
            .map(|(barrier, thread)| Step::PropagateBarrier { barrier, thread })
            .collect(),
        5 => commits(random, writes),
        6 => responses(random, machine),
        _ => (0..barriers)
            .map(|barrier| Step::Acknowledge { barrier })
            .collect(),
    }
}

fn pairs(first: usize, second: usize) -> impl Iterator<Item = (usize, usize)> {
    (0..first).flat_map(move |a| (0..second).map(move |b| (a, b)))
}

fn commits(random: &mut Random, writes: usize) -> Vec<Step> {
    let itself = random.below(writes.max(1));
    let pairs = pairs(writes, writes).filter(|&(a, b)| a != b || a == itself);
    pairs
        .map(|(first, second)| Step::Commit { first, second })
        .collect()
}

/// For one thread and address the right value, values that it had or could have, and wrong ones.
fn responses(random: &mut Random, machine: &Machine) -> Vec<Step> {
    let thread = random.below(machine.threads.len());
    let address = random.below(machine.initial.len());
    let value = machine.value(thread, address);
    let mut values = vec![value, value ^ value_bit(random), machine.initial[address]];
    let to_address = machine
        .writes
        .iter()
        .filter(|write| usize::from(write.address) == address);
    values.extend(to_address.map(|write| write.value));
    let step = |value| Step::Respond {
        thread,
        address,
        value,
    };
    values.into_iter().map(step).collect()
}

/// Of any width, or one of a few.
fn any_value(random: &mut Random) -> u32 {
    match random.below(6) {
        0 => VALUE,
        1 | 2 => random.below(3) as u32,
        _ => random.of_any_width(VALUE),
    }
}
