//! A case to bytes.

use crate::answer::{Answer, ROOM};
use crate::case::{Case, Dependency, Event};
use crate::limits::SECOND;

/// The bytes of a number: groups of seven bits, lowest first, in the shortest form.
pub fn number(mut value: u64) -> Vec<u8> {
    let mut bytes = Vec::new();
    while value >= 128 {
        bytes.push((value % 128) as u8 + 128);
        value /= 128;
    }
    bytes.push(value as u8);
    bytes
}

/// The numbers of a case without fault, in the record's order, the name's length last.
pub fn numbers(case: &Case) -> Vec<u32> {
    let mut all = vec![case.edition, case.threads() as u32, case.addresses() as u32];
    all.extend(&case.initial);
    all.push(case.events.len() as u32);
    for event in &case.events {
        all.extend(event_numbers(event));
    }
    if case.edition == SECOND {
        all.push(case.dependencies().len() as u32);
        let numbers = |d: &Dependency| [d.class as u32, d.from as u32, d.to as u32];
        all.extend(case.dependencies().iter().flat_map(numbers));
    }
    for listed in &case.write_orders {
        all.extend(listed.iter().map(|&e| e as u32));
    }
    for order in &case.orders {
        let pairs = order.pairs(case.events.len());
        all.push(pairs.len() as u32);
        all.extend(pairs.iter().flat_map(|&(a, b)| [a as u32, b as u32]));
    }
    all.push(case.name.len() as u32);
    all
}

fn event_numbers(event: &Event) -> Vec<u32> {
    let mut numbers = vec![event.kind as u32, event.thread as u32];
    if !event.is_barrier() {
        numbers.extend([event.address as u32, event.value]);
    }
    numbers
}

/// The record of a case without fault.
pub fn record(case: &Case) -> Vec<u8> {
    let mut bytes: Vec<u8> = numbers(case)
        .into_iter()
        .flat_map(|value| number(value.into()))
        .collect();
    bytes.extend(&case.name);
    bytes
}

/// How many bytes the record of a case without fault takes.
pub fn size(case: &Case) -> usize {
    record(case).len()
}

/// Writes the record into a buffer from a place.
pub fn write(case: &Case, out: &mut [u8], at: usize) -> Answer {
    match case.fault() {
        0 => place(&record(case), out, at),
        fault => Answer::refused(fault),
    }
}

/// Copies the bytes into a buffer from a place, or refuses and leaves the buffer as it is.
pub fn place(bytes: &[u8], out: &mut [u8], at: usize) -> Answer {
    let room = out
        .get_mut(at..)
        .and_then(|part| part.get_mut(..bytes.len()));
    match room {
        Some(room) => {
            room.copy_from_slice(bytes);
            Answer::done(bytes.len())
        }
        None => Answer::refused(ROOM),
    }
}
