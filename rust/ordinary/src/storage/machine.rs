//! The state of the storage machine, the conditions of its steps and their effects.
//!
//! Beside the lists of events there are sets of bits that say what conditions ask. A write and a
//! barrier are in their own thread's list from the moment they are accepted, so that what comes before
//! them there is known then.

use super::{List, Step, SYNC};
use crate::limits::{ADDRESSES, BARRIERS, LISTED, THREADS, WRITES};

/// A set of writes, or of barriers.
type Set = u16;

#[derive(Clone, Copy, Debug, Default, PartialEq, Eq)]
pub struct Write {
    pub thread: u8,
    pub address: u8,
    pub value: u32,
    /// The writes before it in coherence order.
    pub before: Set,
    /// The barriers before it in its thread's list.
    barriers: Set,
    /// The writes that a barrier separates from it in its thread's list.
    separated: Set,
}

#[derive(Clone, Copy, Debug, Default, PartialEq, Eq)]
pub struct Barrier {
    pub thread: u8,
    pub class: u8,
    /// It is a sync that was not acknowledged.
    pub unacknowledged: bool,
    /// The writes before it in its thread's list.
    group_a: Set,
}

/// An entry of a thread's list.
#[derive(Clone, Copy, Debug, PartialEq, Eq)]
pub enum Event {
    Write(u8),
    Barrier(u8),
}

impl Default for Event {
    fn default() -> Event {
        Event::Write(0)
    }
}

#[derive(Clone, Copy, Debug, Default, PartialEq, Eq)]
pub struct Thread {
    /// What has been propagated to it, in order.
    pub events: List<Event, LISTED>,
    writes: Set,
    barriers: Set,
    /// The writes that have a barrier behind them.
    before_barrier: Set,
    /// By address, the value of the most recent write.
    memory: [u32; ADDRESSES],
}

/// The storage subsystem.
#[derive(Clone, Copy, Debug, Default, PartialEq, Eq)]
pub struct Machine {
    pub initial: List<u32, ADDRESSES>,
    pub threads: List<Thread, THREADS>,
    pub writes: List<Write, WRITES>,
    pub barriers: List<Barrier, BARRIERS>,
    /// The writes to each address.
    to: [Set; ADDRESSES],
}

impl Machine {
    pub fn new(threads: usize, initial: List<u32, ADDRESSES>) -> Machine {
        let mut thread = Thread::default();
        thread.memory[..initial.len()].copy_from_slice(&initial);
        Machine {
            initial,
            threads: (0..threads).map(|_| thread).collect(),
            ..Machine::default()
        }
    }

    /// The value that a read response gives.
    pub fn value(&self, thread: usize, address: usize) -> u32 {
        self.threads[thread].memory[address]
    }

    /// The first of a step's conditions that fails, from 1 on; 0 where it is enabled.
    pub fn failing(&self, step: Step) -> u32 {
        match step {
            Step::AcceptWrite { .. } | Step::AcceptBarrier { .. } => 0,
            Step::PropagateWrite { write, thread } => self.failing_of_write(write, thread),
            Step::PropagateBarrier { barrier, thread } => self.failing_of_barrier(barrier, thread),
            Step::Commit { first, second } => self.failing_of_commit(first, second),
            Step::Respond {
                thread,
                address,
                value,
            } => (value != self.value(thread, address)).into(),
            Step::Acknowledge { barrier } => self.failing_of_acknowledge(barrier),
        }
    }

    fn failing_of_write(&self, write: usize, thread: usize) -> u32 {
        let to = &self.threads[thread];
        let Write {
            address,
            before,
            barriers,
            ..
        } = self.writes[write];
        if has(to.writes, write) {
            1
        } else if to.writes & self.to[usize::from(address)] & !before != 0 {
            2
        } else if barriers & !to.barriers != 0 {
            3
        } else {
            0
        }
    }

    fn failing_of_barrier(&self, barrier: usize, thread: usize) -> u32 {
        let to = &self.threads[thread];
        if has(to.barriers, barrier) {
            1
        } else if self.barriers[barrier].group_a & !self.up_to(to.writes) != 0 {
            2
        } else {
            0
        }
    }

    fn failing_of_commit(&self, first: usize, second: usize) -> u32 {
        let [one, other] = [first, second].map(|write| &self.writes[write]);
        if one.address != other.address {
            1
        } else if has(one.before, second) || has(other.before, first) {
            2
        } else if self.leads(second, first) {
            3
        } else {
            0
        }
    }

    fn failing_of_acknowledge(&self, barrier: usize) -> u32 {
        let mut threads = self.threads.iter();
        if !self.barriers[barrier].unacknowledged {
            1
        } else if !threads.all(|thread| has(thread.barriers, barrier)) {
            2
        } else {
            0
        }
    }

    /// The writes, and those before them in coherence order.
    fn up_to(&self, writes: Set) -> Set {
        members(writes).fold(writes, |all, write| all | self.writes[write].before)
    }

    /// Whether a write is another one, or comes before it by coherence and by barriers that separate,
    /// in any number of steps. If so, an edge back makes a cycle, and otherwise it makes none: without
    /// it there is none, since nothing is behind a write that is accepted, and each commit is held to
    /// this.
    fn leads(&self, from: usize, to: usize) -> bool {
        let mut found = bit(to);
        let mut new = found;
        while new != 0 {
            let write = &self.writes[new.trailing_zeros() as usize];
            new &= new - 1;
            let more = (write.before | write.separated) & !found;
            found |= more;
            new |= more;
        }
        has(found, from)
    }

    /// The effect of a step that is enabled.
    pub fn take(&mut self, step: Step) {
        match step {
            Step::AcceptWrite {
                thread,
                address,
                value,
            } => self.accept_write(thread, address, value),
            Step::AcceptBarrier { thread, class } => self.accept_barrier(thread, class),
            Step::PropagateWrite { write, thread } => self.propagate_write(write, thread),
            Step::PropagateBarrier { barrier, thread } => self.threads[thread].add_barrier(barrier),
            Step::Commit { first, second } => self.commit(first, second),
            Step::Respond { .. } => {}
            Step::Acknowledge { barrier } => self.barriers[barrier].unacknowledged = false,
        }
    }

    fn accept_write(&mut self, thread: usize, address: usize, value: u32) {
        let own = &self.threads[thread];
        let new = Write {
            thread: thread as u8,
            address: address as u8,
            value,
            before: self.up_to(own.writes & self.to[address]),
            barriers: own.barriers,
            separated: own.before_barrier,
        };
        let write = self.writes.len();
        self.writes.push(new);
        self.to[address] |= bit(write);
        self.propagate_write(write, thread);
    }

    fn accept_barrier(&mut self, thread: usize, class: usize) {
        let own = &mut self.threads[thread];
        let barrier = self.barriers.len();
        self.barriers.push(Barrier {
            thread: thread as u8,
            class: class as u8,
            unacknowledged: class == SYNC,
            group_a: own.writes,
        });
        own.add_barrier(barrier);
    }

    fn propagate_write(&mut self, write: usize, thread: usize) {
        let Write { address, value, .. } = self.writes[write];
        let to = &mut self.threads[thread];
        to.events.push(Event::Write(write as u8));
        to.writes |= bit(write);
        to.memory[usize::from(address)] = value;
    }

    /// The first write and those before it come before the second one and those behind it.
    fn commit(&mut self, first: usize, second: usize) {
        let earlier = self.up_to(bit(first));
        for (write, other) in self.writes.iter_mut().enumerate() {
            if write == second || has(other.before, second) {
                other.before |= earlier;
            }
        }
    }
}

impl Thread {
    fn add_barrier(&mut self, barrier: usize) {
        self.events.push(Event::Barrier(barrier as u8));
        self.barriers |= bit(barrier);
        self.before_barrier = self.writes;
    }
}

fn bit(number: usize) -> Set {
    1 << number
}

fn has(set: Set, number: usize) -> bool {
    set & bit(number) != 0
}

fn members(set: Set) -> impl Iterator<Item = usize> {
    let mut rest = set;
    std::iter::from_fn(move || {
        let first = rest.trailing_zeros() as usize;
        (rest != 0).then(|| {
            rest &= rest - 1;
            first
        })
    })
}
