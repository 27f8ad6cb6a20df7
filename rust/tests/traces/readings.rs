//! What reading a trace gives.

use crate::answers::padded;
use litmus::{Steps, TraceReading};
use ordinary::answer::Refusal;
use ordinary::storage::{List, Reading, Trace};

/// The other implementation's reading in the library's type.
pub fn raw_reading(reading: Result<Reading, Refusal>) -> TraceReading {
    match reading {
        Ok(Reading { trace, length }) => TraceReading {
            number: 0,
            place: 0,
            length: length as u64,
            steps: steps(&trace),
        },
        Err(Refusal { number, place }) => TraceReading {
            number,
            place: place as u64,
            length: 0,
            steps: steps(&Trace {
                threads: 0,
                initial: List::default(),
                steps: Vec::new(),
            }),
        },
    }
}

fn steps(trace: &Trace) -> Steps {
    let fields: Vec<Vec<u32>> = trace.steps.iter().map(|step| step.fields()).collect();
    let field = |i: usize| fields.iter().map(move |fields| fields.get(i).copied());
    let label = |field: Option<u32>| field.unwrap_or(0) as u8;
    Steps {
        threads: trace.threads,
        addresses: trace.initial.len(),
        initial: padded(trace.initial.iter().copied()),
        steps: trace.steps.len(),
        kind: padded(trace.steps.iter().map(|step| step.kind() as u8)),
        first: padded(field(0).map(label)),
        second: padded(field(1).map(label)),
        value: padded(field(2).map(Option::unwrap_or_default)),
    }
}
