//! The wrapper's own types and words say what the library answers about traces.

#[path = "common/trace_text.rs"]
mod trace_text;

use litmus::{read_trace, read_trace_raw, trace, trace_raw};
use litmus::{BarrierClass, Propagated, Refusal, Step, StepCondition, Steps, TraceAnswer, Traced};
use litmus::{STEPS, TRACE_BYTES};
use ordinary::answer::{DISABLED, ENDS, FORM, RANGE};
use ordinary::generate::any_trace;
use ordinary::random::Random;
use ordinary::storage::{self, LWSYNC};
use ordinary::tally::Tally;
use trace_text::bytes;

/// A step in the other implementation's type.
fn plain(step: Step) -> storage::Step {
    match step {
        Step::AcceptWrite {
            thread,
            address,
            value,
            ..
        } => storage::Step::AcceptWrite {
            thread,
            address,
            value,
        },
        Step::AcceptBarrier { thread, class, .. } => storage::Step::AcceptBarrier {
            thread,
            class: class as usize,
        },
        Step::PropagateWrite { write, thread } => storage::Step::PropagateWrite { write, thread },
        Step::PropagateBarrier { barrier, thread } => {
            storage::Step::PropagateBarrier { barrier, thread }
        }
        Step::Commit { first, second } => storage::Step::Commit { first, second },
        Step::Respond {
            thread,
            address,
            value,
        } => storage::Step::Respond {
            thread,
            address,
            value,
        },
        Step::Acknowledge { barrier } => storage::Step::Acknowledge { barrier },
    }
}

/// What the raw answers say in the wrapper's types.
fn expected(answer: &TraceAnswer, bytes: &[u8]) -> Result<Traced, Refusal> {
    match answer.number {
        0 => Ok(Traced::Accepted {
            length: answer.length as usize,
            end: Box::new(answer.end),
        }),
        DISABLED => {
            let reading = read_trace_raw(bytes);
            let step = answer.step as usize;
            Ok(Traced::NotEnabled {
                length: reading.length as usize,
                step,
                condition: StepCondition {
                    step: reading.steps.list()[step],
                    number: answer.condition,
                },
            })
        }
        number => Err(Refusal {
            number,
            place: Some(answer.place as usize),
        }),
    }
}

/// Writes and barriers of a trace have the numbers 0, 1, .. as accepted.
fn assert_numbered(steps: &[Step]) {
    let writes = steps.iter().filter_map(|step| match step {
        Step::AcceptWrite { write, .. } => Some(*write),
        _ => None,
    });
    assert!(writes.clone().eq(0..writes.count()));
    let barriers = steps.iter().filter_map(|step| match step {
        Step::AcceptBarrier { barrier, .. } => Some(*barrier),
        _ => None,
    });
    assert!(barriers.clone().eq(0..barriers.count()));
}

#[test]
fn typed_answers_are_the_raw_ones() {
    let mut random = Random::new(141);
    let mut times = Tally::default();
    for _ in 0..10_000 {
        let bytes = any_trace(&mut random);
        let answer = trace_raw(&bytes);
        assert_eq!(trace(&bytes), expected(&answer, &bytes));
        times.add("numbers", answer.number);
        match (read_trace(&bytes), storage::read_trace(&bytes)) {
            (Ok((steps, length)), Ok(reading)) => {
                let listed = steps.list();
                assert_eq!(length, reading.length);
                assert!(listed
                    .iter()
                    .map(|&step| plain(step))
                    .eq(reading.trace.steps));
                assert_numbered(&listed);
            }
            (Err(Refusal { number, place }), Err(refusal)) => {
                assert_eq!((number, place), (refusal.number, Some(refusal.place)));
            }
            _ => panic!("one of two reads {bytes:?}"),
        }
    }
    println!("{times}");
    times.assert_each("numbers", [0, ENDS, FORM, RANGE, DISABLED], 100);
}

const WRITE: &str = "accept write x=1 by thread 0\n";
const OTHER: &str = "accept write x=2 by thread 1\n";
const LWSYNC_LINE: &str = "accept lwsync by thread 0\n";

/// A trace of two threads and two addresses, whose last step is not enabled, with these words.
fn assert_told(lines: &[&str], words: &str) {
    let lines = lines.concat();
    let bytes = bytes(&format!("threads 2\naddresses x y\n{lines}"));
    let step = lines.lines().count() - 1;
    let expected = format!("step {step} is not enabled: condition {words}");
    assert_eq!(trace(&bytes).expect("a trace").to_string(), expected);
}

#[test]
fn conditions_on_propagating() {
    assert_told(
        &[WRITE, "propagate write 0 to thread 0"],
        "1 on propagating a write fails: write 0 has already been propagated to thread 0",
    );
    assert_told(
        &[WRITE, OTHER, "propagate write 0 to thread 1"],
        "2 on propagating a write fails: write 0 is not coherence-after every write to its address that has already been propagated to thread 1",
    );
    assert_told(
        &[LWSYNC_LINE, WRITE, "propagate write 0 to thread 1"],
        "3 on propagating a write fails: a barrier that comes before write 0 in its own thread's list has not been propagated to thread 1",
    );
    assert_told(
        &[LWSYNC_LINE, "propagate barrier 0 to thread 0"],
        "1 on propagating a barrier fails: barrier 0 has already been propagated to thread 0",
    );
    assert_told(
        &[WRITE, LWSYNC_LINE, "propagate barrier 0 to thread 1"],
        "2 on propagating a barrier fails: a write that comes before barrier 0 in its own thread's list (Group A) has not been propagated to thread 1, nor has a coherence successor of it",
    );
}

/// Each thread writes to both addresses, with a barrier between.
const TWO_WAYS: &str = "accept write x=1 by thread 0\naccept lwsync by thread 0\n\
    accept write y=2 by thread 0\naccept write y=1 by thread 1\naccept sync by thread 1\n\
    accept write x=2 by thread 1\ncommit write 3 before write 0\n";

#[test]
fn conditions_on_commitments() {
    let to_y = "accept write y=1 by thread 0\n";
    assert_told(
        &[WRITE, to_y, "commit write 0 before write 1"],
        "1 on a coherence commitment fails: writes 0 and 1 are to different addresses",
    );
    assert_told(
        &[WRITE, WRITE, "commit write 0 before write 1"],
        "2 on a coherence commitment fails: writes 0 and 1 are already related by coherence",
    );
    assert_told(
        &[TWO_WAYS, "commit write 1 before write 2"],
        "3 on a coherence commitment fails: with write 1 before write 2 there is a cycle of coherence and of writes that a barrier separates",
    );
    assert_told(
        &[WRITE, "commit write 0 before write 0"],
        "3 on a coherence commitment fails: a write can't be before itself",
    );
}

#[test]
fn conditions_on_answers() {
    assert_told(
        &[WRITE, "read x=1 by thread 1"],
        "1 on a read response fails: thread 1 reads the most recent write to address 0 that has been propagated to it, or else the initial value, and that is not 1",
    );
    assert_told(
        &[LWSYNC_LINE, "acknowledge barrier 0"],
        "1 on acknowledging a sync fails: barrier 0 is an lwsync, or has already been acknowledged",
    );
    assert_told(
        &["accept sync by thread 0\n", "acknowledge barrier 0"],
        "2 on acknowledging a sync fails: barrier 0 has not been propagated to every thread",
    );
}

/// The lines of an end state.
fn end(lines: &str) -> String {
    match trace(&bytes(lines)) {
        Ok(Traced::Accepted { end, .. }) => end.to_string(),
        other => panic!("{other:?}"),
    }
}

#[test]
fn end_states() {
    assert_eq!(
        end("threads 2\naddresses x\n"),
        "propagated to thread 0: nothing\npropagated to thread 1: nothing"
    );
    let four = "threads 4\naddresses y x\naccept write x=0 by thread 0\n\
        accept write x=1 by thread 1\naccept write x=2 by thread 2\naccept write x=3 by thread 3\n";
    let coherence = |commits: &str| {
        let end = end(&format!("{four}{commits}"));
        let line = end.lines().next().expect("a line");
        let words = line.strip_prefix("coherence of address 1: ").expect(line);
        words.to_string()
    };
    assert_eq!(coherence(""), "nothing committed");
    let commit = |pairs: &[(usize, usize)]| -> String {
        let line = |(a, b)| format!("commit write {a} before write {b}\n");
        coherence(&pairs.iter().copied().map(line).collect::<String>())
    };
    assert_eq!(commit(&[(3, 2), (2, 1), (1, 0)]), "writes 3<2<1<0");
    assert_eq!(commit(&[(0, 1), (2, 3)]), "writes 0<1, 2<3");
    let diamond = [(0, 1), (0, 2), (1, 3), (2, 3)];
    assert_eq!(commit(&diamond), "writes 0<1<3, 0<2<3");
    assert_eq!(commit(&[(2, 0), (0, 1), (2, 3)]), "writes 2<0<1, 2<3");
    assert_eq!(
        end(
            "threads 1\naddresses x\naccept sync by thread 0\naccept lwsync by thread 0\n\
             accept sync by thread 0\naccept sync by thread 0\nacknowledge barrier 2\n"
        ),
        "propagated to thread 0: barrier 0, barrier 1, barrier 2, barrier 3\n\
         not acknowledged: barrier 0, barrier 3"
    );
}

#[test]
fn states_are_asked() {
    let lines = format!(
        "threads 2\naddresses x y\n{WRITE}{LWSYNC_LINE}{OTHER}commit write 1 before write 0\n\
         propagate write 0 to thread 1\n"
    );
    let Ok(Traced::Accepted { end, .. }) = trace(&bytes(&lines)) else {
        panic!("every step is enabled");
    };
    assert_eq!(
        end.events(0),
        [Propagated::Write(0), Propagated::Barrier(0)]
    );
    assert_eq!(end.events(1), [Propagated::Write(1), Propagated::Write(0)]);
    assert!(end.is_before(1, 0) && !end.is_before(0, 1) && !end.is_before(0, 0));
    assert_eq!(end.barrier_class[0], BarrierClass::Lwsync as u8);
    assert_eq!(LWSYNC, BarrierClass::Lwsync as usize);
}

/// All its steps are read responses with the greatest value.
#[test]
fn the_greatest_trace() {
    let front = "threads 4\naddresses a b c d\n";
    let initial = "initial a=4294967295 b=4294967295 c=4294967295 d=4294967295\n";
    let steps = "read d=4294967295 by thread 3\n".repeat(STEPS);
    let bytes = bytes(&format!("{front}{initial}{steps}"));
    assert_eq!(bytes.len(), TRACE_BYTES);
    let (number, length) = (trace_raw(&bytes).number, trace_raw(&bytes).length);
    assert_eq!((number, length), (0, TRACE_BYTES as u64));
}

/// A kind that no trace has ends the list.
#[test]
fn steps_of_no_kind() {
    let (mut steps, _) =
        read_trace(&bytes("threads 1\naddresses x\nread x=0 by thread 0\n")).expect("a trace");
    assert_eq!(steps.list().len(), 1);
    steps.steps = 2;
    assert_eq!(steps.list().len(), 1);
    steps.kind[0] = Steps::ACKNOWLEDGE + 1;
    assert_eq!(steps.list(), []);
}
