//! The representative of a record's class without a search: parts of the record in another order.
//!
//! The first numbers in which renumberings of a record differ decide which is least. The initial
//! values stand first, so the addresses are sorted by the bytes of theirs. Then come the events: of
//! equal addresses the one that is accessed first has the least label, and so has of all threads the
//! one that is listed first. Addresses without accesses have nothing else to differ in. Threads
//! without events have their orders, which come last.

use super::{read, Case, LOAD, STORE};
use crate::answer::{Answer, ROOM};
use crate::limits::{ADDRESSES, LABELS, SECOND, THREADS};

/// The labels from first to last, and where each goes.
struct Labels {
    sorted: [usize; LABELS],
    new: [u8; LABELS],
}

impl Labels {
    /// The first `count` labels by their keys.
    fn sorted_by<K: Ord>(count: usize, key: impl Fn(usize) -> K) -> Labels {
        let mut sorted = std::array::from_fn(|label| label);
        sorted[..count].sort_by_key(|&label| key(label));
        let mut new = [0; LABELS];
        for (place, &label) in sorted.iter().enumerate() {
            new[label] = place as u8;
        }
        Labels { sorted, new }
    }
}

/// Where a record's bytes are cut: what bears labels, by old label, and what lies between.
#[derive(Default)]
struct Cut<'a> {
    head: &'a [u8],
    initial: [&'a [u8]; ADDRESSES],
    events: &'a [u8],
    dependencies: &'a [u8],
    writes: [&'a [u8]; ADDRESSES],
    orders: [&'a [u8]; THREADS],
    name: &'a [u8],
}

impl<'a> Cut<'a> {
    /// Of the record of a case.
    fn new(record: &'a [u8], case: &Case) -> Cut<'a> {
        let mut rest = record;
        let mut cut = Cut {
            head: take(&mut rest, 3),
            ..Cut::default()
        };
        for initial in &mut cut.initial[..case.addresses] {
            *initial = take_number(&mut rest).0;
        }
        let size = 1 + events_size(case, &rest[1..]);
        cut.events = take(&mut rest, size);
        if u32::from(record[0]) == SECOND {
            let size = 1 + 3 * usize::from(rest[0]);
            cut.dependencies = take(&mut rest, size);
        }
        for (writes, &stores) in cut.writes.iter_mut().zip(&case.stores) {
            *writes = take(&mut rest, stores);
        }
        for order in &mut cut.orders[..case.threads] {
            let mut behind = rest;
            let (count, pairs) = take_number(&mut behind);
            *order = take(&mut rest, count.len() + 2 * pairs);
        }
        cut.name = rest;
        cut
    }
}

fn take<'a>(bytes: &mut &'a [u8], size: usize) -> &'a [u8] {
    let (part, rest) = bytes.split_at(size);
    *bytes = rest;
    part
}

/// The bytes of a number, and the number.
fn take_number<'a>(bytes: &mut &'a [u8]) -> (&'a [u8], usize) {
    let more = bytes.iter().take_while(|&&byte| byte >= 128).count();
    let part = take(bytes, more + 1);
    let groups = part.iter().rev();
    let number = groups.fold(0, |number, &byte| number << 7 | usize::from(byte & 127));
    (part, number)
}

/// How many bytes the case's events take, which are the first of these.
fn events_size(case: &Case, bytes: &[u8]) -> usize {
    let mut rest = bytes;
    for event in &case.events[..case.count] {
        if matches!(event.kind, LOAD | STORE) {
            take(&mut rest, 3);
            take_number(&mut rest);
        } else {
            take(&mut rest, 2);
        }
    }
    bytes.len() - rest.len()
}

/// Writes the representative of a record's class into a buffer from a place.
pub fn representative(record: &[u8], out: &mut [u8], at: usize) -> Answer {
    let case = match read(record) {
        Ok(case) => case,
        Err(refusal) => return refusal.into(),
    };
    let room = out.get_mut(at..);
    let Some(room) = room.and_then(|part| part.get_mut(..case.length)) else {
        return Answer::refused(ROOM);
    };
    let cut = Cut::new(&record[..case.length], &case);
    let (threads, addresses) = new_labels(&case, &cut);
    let mut writer = Writer { room, place: 0 };
    writer.copy(cut.head);
    for &x in &addresses.sorted[..case.addresses] {
        writer.copy(cut.initial[x]);
    }
    let events = writer.place + 1;
    writer.copy(cut.events);
    relabel(&case, &mut writer.room[events..], &threads, &addresses);
    writer.copy(cut.dependencies);
    for &x in &addresses.sorted[..case.addresses] {
        writer.copy(cut.writes[x]);
    }
    for &p in &threads.sorted[..case.threads] {
        writer.copy(cut.orders[p]);
    }
    writer.copy(cut.name);
    Answer::done(case.length)
}

/// Of threads and of addresses.
fn new_labels(case: &Case, cut: &Cut) -> (Labels, Labels) {
    let events = &case.events[..case.count];
    let (mut listed, mut accessed) = ([usize::MAX; THREADS], [usize::MAX; ADDRESSES]);
    for (e, event) in events.iter().enumerate().rev() {
        listed[usize::from(event.thread)] = e;
        if matches!(event.kind, LOAD | STORE) {
            accessed[usize::from(event.address)] = e;
        }
    }
    let threads = Labels::sorted_by(case.threads, |p| (listed[p], cut.orders[p]));
    let addresses = Labels::sorted_by(case.addresses, |x| (cut.initial[x], accessed[x]));
    (threads, addresses)
}

/// Puts the new labels into the events, which are the first of these bytes.
fn relabel(case: &Case, mut rest: &mut [u8], threads: &Labels, addresses: &Labels) {
    for event in &case.events[..case.count] {
        rest[1] = threads.new[usize::from(event.thread)];
        let mut size = 2;
        if matches!(event.kind, LOAD | STORE) {
            rest[2] = addresses.new[usize::from(event.address)];
            let mut value = &rest[3..];
            size = 3 + take_number(&mut value).0.len();
        }
        rest = &mut rest[size..];
    }
}

struct Writer<'a> {
    room: &'a mut [u8],
    place: usize,
}

impl Writer<'_> {
    fn copy(&mut self, part: &[u8]) {
        self.room[self.place..][..part.len()].copy_from_slice(part);
        self.place += part.len();
    }
}
