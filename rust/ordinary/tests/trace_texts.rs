//! A trace is what is read from a text of it.

use ordinary::generate::any_trace;
use ordinary::random::Random;
use ordinary::storage::{read_trace, Reading, Step, Trace};
use ordinary::tally::Tally;
use ordinary::text::trace::parse;

const ADDRESSES: [&str; 4] = ["x", "flag", "0", "thread"];

fn line(step: Step) -> String {
    match step {
        Step::AcceptWrite {
            thread,
            address,
            value,
        } => {
            let address = ADDRESSES[address];
            format!("accept write {address}={value} by thread {thread}")
        }
        Step::AcceptBarrier { thread, class } => {
            let class = ["sync", "lwsync"][class];
            format!("accept {class} by thread {thread}")
        }
        Step::PropagateWrite { write, thread } => {
            format!("propagate write {write} to thread {thread}")
        }
        Step::PropagateBarrier { barrier, thread } => {
            format!("propagate barrier {barrier} to thread {thread}")
        }
        Step::Commit { first, second } => format!("commit write {first} before write {second}"),
        Step::Respond {
            thread,
            address,
            value,
        } => {
            let address = ADDRESSES[address];
            format!("read {address} = {value} by thread {thread}")
        }
        Step::Acknowledge { barrier } => format!("acknowledge barrier {barrier}"),
    }
}

fn text(trace: &Trace) -> String {
    let names = &ADDRESSES[..trace.initial.len()];
    let values = names.iter().zip(trace.initial.iter());
    let values: String = values
        .map(|(name, value)| format!(" {name}={value}"))
        .collect();
    let (threads, names) = (trace.threads, names.join(" "));
    let front = format!("trace\nthreads {threads}\naddresses {names}\ninitial{values}\n");
    let lines = trace.steps.iter().map(|&step| line(step) + "\n");
    front + &lines.collect::<String>()
}

#[test]
fn texts_are_read_back() {
    let mut random = Random::new(140);
    let mut kinds = Tally::default();
    for _ in 0..4_000 {
        let Ok(Reading { trace, .. }) = read_trace(&any_trace(&mut random)) else {
            continue;
        };
        assert_eq!(parse(&text(&trace)).as_ref(), Ok(&trace));
        let steps = trace.steps.iter();
        steps.for_each(|step| kinds.add("kinds", step.kind() as u32));
    }
    kinds.assert_each("kinds", 1..=Step::KINDS as u32, 1_000);
}
