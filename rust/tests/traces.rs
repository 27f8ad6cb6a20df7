//! Traces of the storage machine: answers and readings agree with an ordinary machine's.

#[path = "common/traces.rs"]
mod answers;
#[path = "traces/every.rs"]
mod every;
#[path = "traces/readings.rs"]
mod readings;
#[path = "traces/times.rs"]
mod times;
#[path = "../ordinary/tests/storage/worked.rs"]
mod worked;

use ordinary::answer::{DISABLED, ENDS};
use ordinary::generate::{accepted_trace, any_trace, odd_traces, step_off_at};
use ordinary::limits::{most_trace_bytes, STEPS};
use ordinary::random::Random;
use ordinary::storage::{trace_bytes, trace_numbers, Answer, Machine};
use ordinary::write::number;
use times::{compare, Times};

const TRACES: usize = 100_000;

#[test]
fn any_traces() {
    let mut random = Random::new(142);
    let mut times = Times::default();
    for _ in 0..TRACES {
        times.add(&any_trace(&mut random));
    }
    println!("{TRACES} traces:\n{times}");
    times.assert_each(100);
}

#[test]
fn worked_traces() {
    for row in worked::rows() {
        let told = Answer {
            end: Machine::default(),
            ..compare(&row.bytes)
        };
        assert_eq!(told, row.answer, "{}", row.line);
    }
}

/// Accepted traces of every length, and with a step that is not enabled at every place.
#[test]
fn every_length() {
    const TIMES: usize = 40;
    let mut random = Random::new(143);
    let mut times = Times::default();
    for steps in 0..=STEPS {
        for _ in 0..TIMES {
            let trace = accepted_trace(&mut random, steps);
            assert_eq!(times.add(&trace_bytes(&trace)).number, 0);
            let at = steps.min(STEPS - 1);
            let trace = step_off_at(&mut random, trace, at);
            let answer = times.add(&trace_bytes(&trace));
            assert_eq!((answer.number, answer.step), (DISABLED, at));
        }
    }
    times.assert_lengths(TIMES);
}

/// A trace that is cut is refused with 1, at the number in which its bytes end.
#[test]
fn every_end() {
    let mut random = Random::new(144);
    for steps in (0..=STEPS).step_by(8) {
        let trace = accepted_trace(&mut random, steps);
        let bytes = trace_bytes(&trace);
        let mut start = 0;
        for value in trace_numbers(&trace) {
            let end = start + number(value.into()).len();
            for size in start..end {
                let answer = compare(&bytes[..size]);
                assert_eq!((answer.number, answer.place), (ENDS, start), "{bytes:?}");
            }
            start = end;
        }
        assert_eq!(compare(&bytes).length, start);
    }
}

/// What is behind a trace does not matter.
#[test]
fn bytes_behind() {
    let mut random = Random::new(145);
    for i in 0..2_000 {
        let steps = i % (STEPS + 1);
        let mut trace = accepted_trace(&mut random, steps);
        if random.once_in(2) {
            let at = random.below(STEPS.min(steps + 1));
            trace = step_off_at(&mut random, trace, at);
        }
        let mut bytes = trace_bytes(&trace);
        let answer = compare(&bytes);
        let behind = random.from_to(1, 2 * most_trace_bytes());
        bytes.extend(random.bytes(behind));
        assert_eq!(compare(&bytes), answer, "{bytes:?}");
    }
}

/// Every number of some traces written otherwise.
#[test]
fn odd_numbers() {
    let mut times = Times::default();
    odd_traces(&mut |bytes| {
        times.add(bytes);
    });
    println!("every number written otherwise:\n{times}");
    times.assert_refused(50);
}
