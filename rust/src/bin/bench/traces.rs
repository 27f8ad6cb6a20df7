//! Traces from their bytes to the answer, beside the ordinary machine.
//!
//! A batch has so many different traces that a processor does not learn their branches by heart.

use super::trace_answers::raw;
use super::{compare, each, ORDINARY};
use litmus::{read_trace_raw, trace_raw};
use ordinary::generate::{accepted_trace, mixed_trace, Mixture};
use ordinary::limits::{ADDRESSES, BARRIERS, STEPS, THREADS, WRITES};
use ordinary::random::Random;
use ordinary::storage::{judge_trace, read_trace, trace_bytes, Step, Trace, SYNC};
use std::hint::black_box;

/// How many bytes of traces a batch has at least.
const BATCH: usize = 1 << 20;
/// Half of a trace with many commits: writes first.
const WRITES_FIRST: Mixture = [8, 2, 1, 1, 0, 1, 0];
const COMMITS: Mixture = [0, 0, 1, 1, 12, 1, 1];

/// What traces are like, and one of them.
type Batch = (&'static str, fn(&mut Random) -> Trace);

const BATCHES: [Batch; 6] = [
    ("any, of 8 steps", |random| accepted_trace(random, 8)),
    ("any, of 32 steps", |random| accepted_trace(random, 32)),
    ("any, of 128 steps", |random| accepted_trace(random, STEPS)),
    ("of 48 steps, writes first and then commits", |random| {
        mixed_trace(random, THREADS, 2, 48, [WRITES_FIRST, COMMITS])
    }),
    ("of the most commits, to one address", most_commits),
    (
        "of the most propagations, to one address",
        most_propagations,
    ),
];

pub fn traces() {
    for (which, make) in BATCHES {
        let mut random = Random::new(45);
        let traces = batch(&mut random, make);
        let bytes: usize = traces.iter().map(Vec::len).sum();
        println!("{} traces {which}, {bytes} bytes\n", traces.len());
        let unit = |time| each(time, traces.len(), "a trace");
        let judging = compare(
            &traces,
            |trace| u64::from(trace_raw(trace).number),
            |trace| u64::from(black_box(judge_trace(trace)).number),
        );
        judging.print(["bytes to the answer  ours", ORDINARY], unit, 2);
        let reading = compare(
            &traces,
            |trace| u64::from(read_trace_raw(trace).number),
            |trace| black_box(read_trace(trace)).map_or(1, |_| 0),
        );
        reading.print(["reading alone        ours", ORDINARY], unit, 2);
    }
}

/// Accepted traces, of which both say the same.
fn batch(random: &mut Random, make: fn(&mut Random) -> Trace) -> Vec<Vec<u8>> {
    let mut traces = Vec::new();
    let mut bytes = 0;
    while bytes < BATCH {
        let trace = trace_bytes(&make(random));
        assert_eq!(trace_raw(&trace), raw(&judge_trace(&trace)), "{trace:?}");
        bytes += trace.len();
        traces.push(trace);
    }
    traces
}

/// Every thread has as many writes and barriers, and all its writes come before the next one's. The
/// commits are in such an order that each adds no more than its own pair.
fn most_commits(random: &mut Random) -> Trace {
    let mut steps = Vec::new();
    let mut turns: Vec<usize> = (0..WRITES + BARRIERS).map(|i| i % THREADS).collect();
    random.shuffle(&mut turns);
    let mut accepted = [0; THREADS];
    let mut chains = vec![Vec::new(); THREADS];
    for thread in turns {
        accepted[thread] += 1;
        if accepted[thread] % 3 == 0 {
            steps.push(barrier(thread));
        } else {
            let number: usize = chains.iter().map(Vec::len).sum();
            chains[thread].push((thread, number));
            steps.push(write(thread));
        }
    }
    random.shuffle(&mut chains);
    steps.extend(commits(&chains.concat()));
    of_one_address(steps)
}

/// Of each of these writes before those of other threads behind it, from the last on. The writes are given
/// with their threads.
fn commits(order: &[(usize, usize)]) -> Vec<Step> {
    let mut steps = Vec::new();
    for (i, &(one, first)) in order.iter().enumerate() {
        let behind = order[i + 1..].iter().rev();
        let others = behind.filter(|&&(other, _)| other != one);
        steps.extend(others.map(|&(_, second)| Step::Commit { first, second }));
    }
    steps
}

/// A thread does all writes and all barriers, and all go to all others. The syncs are acknowledged.
fn most_propagations(random: &mut Random) -> Trace {
    let owner = random.below(THREADS);
    let mut list: Vec<bool> = (0..WRITES + BARRIERS).map(|i| i < WRITES).collect();
    random.shuffle(&mut list);
    let accept = |&is_write: &bool| {
        if is_write {
            write(owner)
        } else {
            barrier(owner)
        }
    };
    let mut steps: Vec<Step> = list.iter().map(accept).collect();
    let others = (0..THREADS).filter(|&thread| thread != owner);
    let mut turns: Vec<usize> = others.flat_map(|thread| vec![thread; list.len()]).collect();
    random.shuffle(&mut turns);
    let mut gone = [0; THREADS];
    for thread in turns {
        let before = &list[..gone[thread]];
        let writes = before.iter().filter(|&&is_write| is_write).count();
        let barrier = before.len() - writes;
        steps.push(match list[gone[thread]] {
            true => Step::PropagateWrite {
                write: writes,
                thread,
            },
            false => Step::PropagateBarrier { barrier, thread },
        });
        gone[thread] += 1;
    }
    steps.extend((0..BARRIERS).map(|barrier| Step::Acknowledge { barrier }));
    of_one_address(steps)
}

fn write(thread: usize) -> Step {
    Step::AcceptWrite {
        thread,
        address: ADDRESSES - 1,
        value: 1,
    }
}

fn barrier(thread: usize) -> Step {
    Step::AcceptBarrier {
        thread,
        class: SYNC,
    }
}

fn of_one_address(steps: Vec<Step>) -> Trace {
    Trace {
        threads: THREADS,
        initial: [0; ADDRESSES].into_iter().collect(),
        steps,
    }
}
