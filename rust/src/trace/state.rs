//! A state of the storage subsystem in words.

use super::Storage;
use crate::{LISTED, WRITES};
use std::fmt;

/// An event that has been propagated to a thread, by its number.
#[derive(Clone, Copy, Debug, PartialEq, Eq)]
pub enum Propagated {
    Write(usize),
    Barrier(usize),
}

impl fmt::Display for Propagated {
    fn fmt(&self, f: &mut fmt::Formatter) -> fmt::Result {
        match self {
            Propagated::Write(number) => write!(f, "write {number}"),
            Propagated::Barrier(number) => write!(f, "barrier {number}"),
        }
    }
}

impl Storage {
    /// What has been propagated to a thread, in order.
    pub fn events(&self, thread: usize) -> Vec<Propagated> {
        let list = &self.events[thread * LISTED..][..self.listed[thread]];
        let event = |&number: &u8| match usize::from(number) {
            write if write < WRITES => Propagated::Write(write),
            barrier => Propagated::Barrier(barrier - WRITES),
        };
        list.iter().map(event).collect()
    }

    /// Whether write a is before write b in coherence order.
    pub fn is_before(&self, a: usize, b: usize) -> bool {
        self.before[b] >> a & 1 == 1
    }

    /// Whether write a is before write b in coherence order, and no other write is between them.
    fn is_next(&self, a: usize, b: usize) -> bool {
        let between = |c| self.is_before(a, c) && self.is_before(c, b);
        self.is_before(a, b) && !(0..self.writes).any(between)
    }

    /// The writes to an address.
    fn writes_to(&self, address: usize) -> Vec<usize> {
        let to_it = |&write: &usize| usize::from(self.address[write]) == address;
        (0..self.writes).filter(to_it).collect()
    }

    /// The coherence order of some writes as chains such as `0<1<2`. Each pair that does not follow by
    /// transitivity stands in one of them.
    fn chains(&self, writes: &[usize]) -> Vec<String> {
        let to_all = |&a: &usize| writes.iter().map(move |&b| (a, b));
        let pairs = writes.iter().flat_map(to_all);
        let mut pairs: Vec<(usize, usize)> = pairs.filter(|&(a, b)| self.is_next(a, b)).collect();
        let mut chains = Vec::new();
        while let Some(start) = start_of(&pairs) {
            chains.push(joined(&take_chain(start, &mut pairs), "<"));
        }
        chains
    }

    fn coherence_line(&self, address: usize) -> Option<String> {
        let writes = self.writes_to(address);
        let words = match &self.chains(&writes)[..] {
            _ if writes.len() < 2 => return None,
            [] => "nothing committed".to_string(),
            chains => format!("writes {}", chains.join(", ")),
        };
        Some(format!("coherence of address {address}: {words}"))
    }

    fn thread_line(&self, thread: usize) -> String {
        let words = match &self.events(thread)[..] {
            [] => "nothing".to_string(),
            events => joined(events, ", "),
        };
        format!("propagated to thread {thread}: {words}")
    }

    fn waiting_line(&self) -> Option<String> {
        let waits = |&barrier: &usize| self.unacknowledged[barrier] != 0;
        let waiting = (0..self.barriers).filter(waits).map(Propagated::Barrier);
        let words = joined(&waiting.collect::<Vec<_>>(), ", ");
        (!words.is_empty()).then(|| format!("not acknowledged: {words}"))
    }
}

/// Where a chain of the pairs can start: at no pair's end. There is such a place, as there is no cycle.
fn start_of(pairs: &[(usize, usize)]) -> Option<usize> {
    let no_end = |&start: &usize| pairs.iter().all(|&(_, end)| end != start);
    pairs.iter().map(|&(start, _)| start).find(no_end)
}

/// Takes pairs out, each of which begins where the one before it ends.
fn take_chain(start: usize, pairs: &mut Vec<(usize, usize)>) -> Vec<usize> {
    let (mut chain, mut last) = (vec![start], start);
    while let Some(place) = pairs.iter().position(|&(first, _)| first == last) {
        last = pairs.remove(place).1;
        chain.push(last);
    }
    chain
}

fn joined(parts: &[impl ToString], mark: &str) -> String {
    let parts: Vec<String> = parts.iter().map(ToString::to_string).collect();
    parts.join(mark)
}

/// Lines: the coherence order of each address with two writes or more, as far as it is committed;
/// each thread's events in the order propagated; the syncs that are not acknowledged, if there are.
impl fmt::Display for Storage {
    fn fmt(&self, f: &mut fmt::Formatter) -> fmt::Result {
        let coherence = (0..self.addresses).filter_map(|address| self.coherence_line(address));
        let threads = (0..self.threads).map(|thread| self.thread_line(thread));
        let lines: Vec<String> = coherence
            .chain(threads)
            .chain(self.waiting_line())
            .collect();
        f.write_str(&lines.join("\n"))
    }
}
