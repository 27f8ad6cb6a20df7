//! Answers about traces.

use litmus::{Storage, TraceAnswer};
use ordinary::limits::{LISTED, WRITES};
use ordinary::storage::{Answer, Event, Machine, Thread};

/// The other implementation's answer in the library's type.
pub fn raw(answer: &Answer) -> TraceAnswer {
    TraceAnswer {
        number: answer.number,
        condition: answer.condition,
        place: answer.place as u64,
        step: answer.step as u64,
        length: answer.length as u64,
        end: storage(&answer.end),
    }
}

fn storage(machine: &Machine) -> Storage {
    let threads = machine.threads.iter();
    let writes = machine.writes.iter();
    let barriers = machine.barriers.iter();
    Storage {
        threads: machine.threads.len(),
        addresses: machine.initial.len(),
        initial: padded(machine.initial.iter().copied()),
        writes: machine.writes.len(),
        writer: padded(writes.clone().map(|write| write.thread)),
        address: padded(writes.clone().map(|write| write.address)),
        value: padded(writes.clone().map(|write| write.value)),
        before: padded(writes.map(|write| write.before.into())),
        barriers: machine.barriers.len(),
        owner: padded(barriers.clone().map(|barrier| barrier.thread)),
        barrier_class: padded(barriers.clone().map(|barrier| barrier.class)),
        unacknowledged: padded(barriers.map(|barrier| barrier.unacknowledged.into())),
        listed: padded(threads.clone().map(|thread| thread.events.len())),
        events: padded(threads.flat_map(list)),
    }
}

/// A thread's list, filled up to the most entries.
fn list(thread: &Thread) -> [u8; LISTED] {
    let numbers = thread.events.iter().map(|event| match *event {
        Event::Write(write) => write,
        Event::Barrier(barrier) => WRITES as u8 + barrier,
    });
    padded(numbers)
}

/// The items, and zeros behind them.
pub fn padded<T: Copy + Default, const N: usize>(items: impl Iterator<Item = T>) -> [T; N] {
    let mut all = [T::default(); N];
    for (i, item) in items.enumerate() {
        all[i] = item;
    }
    all
}
