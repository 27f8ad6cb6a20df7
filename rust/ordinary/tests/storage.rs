//! The storage machine: worked traces, and generated ones beside the machine word by word.

#[path = "storage/by_lists.rs"]
mod by_lists;
#[path = "storage/worked.rs"]
mod worked;

use by_lists::ByLists;
use ordinary::answer::DISABLED;
use ordinary::generate::{accepted_trace, any_trace};
use ordinary::limits::{most_trace_bytes, ADDRESSES, STEPS, THREADS, VALUE};
use ordinary::random::Random;
use ordinary::storage::{judge_trace, part_at, read_trace, trace_bytes};
use ordinary::storage::{Answer, Machine, Part, Reading, Step, Trace};
use ordinary::tally::Tally;
use worked::rows;

#[test]
fn worked_traces() {
    for row in rows() {
        let answer = judge_trace(&row.bytes);
        let told = Answer {
            end: Machine::default(),
            ..answer
        };
        assert_eq!(told, row.answer, "{}", row.line);
        assert!(answer.number == 0 || answer == told, "{}", row.line);
    }
}

#[test]
fn written_and_read_back() {
    let mut random = Random::new(140);
    for i in 0..2_000 {
        let trace = accepted_trace(&mut random, i % (STEPS + 1));
        let bytes = trace_bytes(&trace);
        let length = bytes.len();
        assert_eq!(read_trace(&bytes), Ok(Reading { trace, length }));
    }
}

#[test]
fn the_greatest_trace() {
    let trace = Trace {
        threads: THREADS,
        initial: [VALUE; ADDRESSES].into_iter().collect(),
        steps: vec![
            Step::Respond {
                thread: 0,
                address: 0,
                value: VALUE,
            };
            STEPS
        ],
    };
    let bytes = trace_bytes(&trace);
    assert_eq!((bytes.len(), most_trace_bytes()), (1_048, 1_048));
    assert_eq!(judge_trace(&bytes).length, bytes.len());
}

#[test]
fn parts() {
    let bytes = [2, 1, 128, 1, 2, 1, 0, 0, 9, 3, 0, 1];
    let parts = [(0, Part::Head), (2, Part::Head), (4, Part::Head)];
    let steps = [(5, Part::Kind), (6, Part::Field(1)), (8, Part::Field(1))];
    let last = [(9, Part::Kind), (10, Part::Field(3)), (11, Part::Field(3))];
    for (place, part) in parts.into_iter().chain(steps).chain(last) {
        assert_eq!(part_at(&bytes, place), part, "{place}");
    }
}

/// The heading of the conditions that failed first, by kind.
const KINDS: [&str; Step::KINDS + 1] = ["", "1", "2", "3", "4", "5", "6", "7"];

/// Every step has the same condition that fails first, and accepted traces have the same end state.
#[test]
fn beside_the_machine_word_by_word() {
    let mut random = Random::new(141);
    let mut times = Tally::default();
    for _ in 0..20_000 {
        let bytes = any_trace(&mut random);
        let answer = judge_trace(&bytes);
        let Ok(Reading { trace, .. }) = read_trace(&bytes) else {
            continue;
        };
        let mut lists = ByLists::new(trace.threads, &trace.initial);
        let taken = match answer.number {
            DISABLED => answer.step,
            _ => trace.steps.len(),
        };
        for &step in &trace.steps[..taken] {
            assert_eq!(lists.failing(step), 0, "{trace:?}");
            times.add(KINDS[step.kind()], 0);
            lists.take(step);
        }
        match trace.steps.get(taken) {
            Some(&step) => {
                assert_eq!(lists.failing(step), answer.condition, "{trace:?}");
                times.add(KINDS[step.kind()], answer.condition);
            }
            None => lists.assert_same(&answer.end),
        }
        lists.assert_in_order();
    }
    println!("kinds of steps, and the conditions that failed first:\n{times}");
    for (kind, heading) in KINDS.into_iter().enumerate().skip(1) {
        let conditions = Step::conditions(kind) as u32;
        times.assert_each(heading, 0..=conditions, 100);
    }
}
