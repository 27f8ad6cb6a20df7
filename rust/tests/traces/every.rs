//! Every trace of a few steps, and every few bytes.

use crate::times::Times;
use ordinary::answer::{DISABLED, ENDS, RANGE};
use ordinary::storage::{trace_bytes, List, Machine, Step, Trace, LWSYNC};

/// All traces of two threads and an address up to so many steps, of which all but the last are enabled.
const STEPS: usize = 5;

#[test]
fn every_short_trace() {
    let mut times = Times::default();
    let mut trace = Trace {
        threads: 2,
        initial: List::from_iter([0]),
        steps: Vec::new(),
    };
    let machine = Machine::new(trace.threads, trace.initial);
    extended(&mut trace, &machine, &mut times);
    println!("every trace up to {STEPS} steps:\n{times}");
    assert!(times.numbers(0) > 50_000 && times.numbers(DISABLED) > 50_000);
}

/// The trace, whose end state is given, and all that begin with it.
fn extended(trace: &mut Trace, machine: &Machine, times: &mut Times) {
    let answer = times.add(&trace_bytes(trace));
    if answer.number != 0 || trace.steps.len() == STEPS {
        return;
    }
    for step in next_steps(machine) {
        let mut next = *machine;
        if machine.failing(step) == 0 {
            next.take(step);
        }
        trace.steps.push(step);
        extended(trace, &next, times);
        trace.steps.pop();
    }
}

/// All that may be read next. Every write has its own value, and responses have these and 0.
fn next_steps(machine: &Machine) -> Vec<Step> {
    let (writes, barriers) = (machine.writes.len(), machine.barriers.len());
    let mut steps = Vec::new();
    for thread in 0..machine.threads.len() {
        let (address, value) = (0, writes as u32 + 1);
        steps.push(Step::AcceptWrite {
            thread,
            address,
            value,
        });
        steps.extend((0..=LWSYNC).map(|class| Step::AcceptBarrier { thread, class }));
        steps.extend((0..writes).map(|write| Step::PropagateWrite { write, thread }));
        steps.extend((0..barriers).map(|barrier| Step::PropagateBarrier { barrier, thread }));
        steps.extend((0..value).map(|value| Step::Respond {
            thread,
            address,
            value,
        }));
    }
    let pairs = (0..writes).flat_map(|first| (0..writes).map(move |second| (first, second)));
    steps.extend(pairs.map(|(first, second)| Step::Commit { first, second }));
    steps.extend((0..barriers).map(|barrier| Step::Acknowledge { barrier }));
    steps
}

/// Up to two steps, and behind their count all bytes up to a length out of a few.
#[test]
fn every_few_bytes() {
    const BYTES: [u8; 10] = [0, 1, 2, 3, 4, 5, 6, 7, 8, 128];
    const LENGTH: u32 = 5;
    let mut times = Times::default();
    for count in 0..=2 {
        for length in 0..=LENGTH {
            for which in 0..BYTES.len().pow(length) {
                let byte = |i| BYTES[which / BYTES.len().pow(i) % BYTES.len()];
                let behind: Vec<u8> = (0..length).map(byte).collect();
                times.add(&[&[2, 2, 0, 1, count], &behind[..]].concat());
            }
        }
    }
    println!("every few bytes:\n{times}");
    assert!([0, ENDS, RANGE, DISABLED]
        .into_iter()
        .all(|number| times.numbers(number) > 100));
}
