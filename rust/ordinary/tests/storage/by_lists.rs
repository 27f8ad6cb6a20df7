//! The storage machine word by word: lists of events, and coherence as a set of pairs.

use ordinary::storage::{Event, Machine, Step, SYNC};
use std::collections::BTreeSet;

type Pairs = BTreeSet<(usize, usize)>;

pub struct ByLists {
    /// By thread.
    propagated: Vec<Vec<Event>>,
    initial: Vec<u32>,
    /// Their threads, addresses and values.
    writes: Vec<(usize, usize, u32)>,
    coherence: Pairs,
    /// Their threads.
    barriers: Vec<usize>,
    unacknowledged: BTreeSet<usize>,
}

impl ByLists {
    pub fn new(threads: usize, initial: &[u32]) -> ByLists {
        ByLists {
            propagated: vec![Vec::new(); threads],
            initial: initial.to_vec(),
            writes: Vec::new(),
            coherence: Pairs::new(),
            barriers: Vec::new(),
            unacknowledged: BTreeSet::new(),
        }
    }

    fn address(&self, write: usize) -> usize {
        self.writes[write].1
    }

    /// The list of the thread that did a write.
    fn list_of(&self, write: usize) -> &[Event] {
        &self.propagated[self.writes[write].0]
    }

    fn arrived(&self, event: Event, thread: usize) -> bool {
        self.propagated[thread].contains(&event)
    }

    /// The writes to an address that have been propagated to a thread, in order.
    fn arrived_at(&self, thread: usize, address: usize) -> Vec<usize> {
        let list = self.propagated[thread].iter();
        let writes = list.filter_map(|event| match *event {
            Event::Write(write) => Some(usize::from(write)),
            Event::Barrier(_) => None,
        });
        writes.filter(|&w| self.address(w) == address).collect()
    }

    /// The number of the first condition that fails, or 0.
    pub fn failing(&self, step: Step) -> u32 {
        let conditions = match step {
            Step::AcceptWrite { .. } | Step::AcceptBarrier { .. } => vec![],
            Step::PropagateWrite { write, thread } => self.write_may_go(write, thread),
            Step::PropagateBarrier { barrier, thread } => self.barrier_may_go(barrier, thread),
            Step::Commit { first, second } => self.may_commit(first, second),
            Step::Respond {
                thread,
                address,
                value,
            } => {
                let latest = self.arrived_at(thread, address).pop();
                vec![value == latest.map_or(self.initial[address], |write| self.writes[write].2)]
            }
            Step::Acknowledge { barrier } => {
                let mut threads = 0..self.propagated.len();
                let everywhere = threads.all(|thread| self.arrived(barrier_event(barrier), thread));
                vec![self.unacknowledged.contains(&barrier), everywhere]
            }
        };
        let first = conditions.iter().position(|&holds| !holds);
        first.map_or(0, |i| i as u32 + 1)
    }

    fn write_may_go(&self, write: usize, thread: usize) -> Vec<bool> {
        let there = self.arrived_at(thread, self.address(write));
        let after = |&other: &usize| self.coherence.contains(&(other, write));
        let mut barriers = (0..self.barriers.len()).map(barrier_event);
        let own = self.list_of(write);
        vec![
            !self.arrived(write_event(write), thread),
            there.iter().all(after),
            barriers.all(|b| !precedes(own, b, write_event(write)) || self.arrived(b, thread)),
        ]
    }

    fn barrier_may_go(&self, barrier: usize, thread: usize) -> Vec<bool> {
        let own = &self.propagated[self.barriers[barrier]];
        let writes = 0..self.writes.len();
        let mut group_a = writes.filter(|&w| precedes(own, write_event(w), barrier_event(barrier)));
        let mut went = |write: usize| {
            (0..self.writes.len()).any(|other| {
                (other == write || self.coherence.contains(&(write, other)))
                    && self.arrived(write_event(other), thread)
            })
        };
        vec![
            !self.arrived(barrier_event(barrier), thread),
            group_a.all(&mut went),
        ]
    }

    fn may_commit(&self, first: usize, second: usize) -> Vec<bool> {
        let mut all = self.with_edge(first, second);
        all.extend(self.separated());
        let related = [(first, second), (second, first)].map(|pair| self.coherence.contains(&pair));
        vec![
            self.address(first) == self.address(second),
            related == [false, false],
            closed(all).iter().all(|(a, b)| a != b),
        ]
    }

    /// Coherence with an edge more, and those implied by transitivity.
    fn with_edge(&self, first: usize, second: usize) -> Pairs {
        let mut pairs = self.coherence.clone();
        pairs.insert((first, second));
        closed(pairs)
    }

    /// The pairs of writes that a barrier separates in the list of the second one's thread.
    fn separated(&self) -> Pairs {
        let writes = 0..self.writes.len();
        let pairs = writes.flat_map(|a| (0..self.writes.len()).map(move |b| (a, b)));
        let separated = |&(a, b): &(usize, usize)| {
            let list = self.list_of(b);
            let mut barriers = (0..self.barriers.len()).map(barrier_event);
            barriers.any(|barrier| {
                precedes(list, write_event(a), barrier) && precedes(list, barrier, write_event(b))
            })
        };
        pairs.filter(separated).collect()
    }

    pub fn take(&mut self, step: Step) {
        match step {
            Step::AcceptWrite {
                thread,
                address,
                value,
            } => self.accept_write(thread, address, value),
            Step::AcceptBarrier { thread, class } => {
                let new = self.barriers.len();
                self.barriers.push(thread);
                self.propagated[thread].push(barrier_event(new));
                if class == SYNC {
                    self.unacknowledged.insert(new);
                }
            }
            Step::PropagateWrite { write, thread } => {
                self.propagated[thread].push(write_event(write));
            }
            Step::PropagateBarrier { barrier, thread } => {
                self.propagated[thread].push(barrier_event(barrier));
            }
            Step::Commit { first, second } => self.coherence = self.with_edge(first, second),
            Step::Respond { .. } => {}
            Step::Acknowledge { barrier } => {
                self.unacknowledged.remove(&barrier);
            }
        }
    }

    fn accept_write(&mut self, thread: usize, address: usize, value: u32) {
        let new = self.writes.len();
        let before = self.arrived_at(thread, address);
        self.writes.push((thread, address, value));
        self.propagated[thread].push(write_event(new));
        let pairs = before.into_iter().map(|write| (write, new));
        self.coherence.extend(pairs);
        self.coherence = closed(self.coherence.clone());
    }

    /// Fails where the other machine is in another state.
    pub fn assert_same(&self, machine: &Machine) {
        let lists: Vec<&[Event]> = machine
            .threads
            .iter()
            .map(|thread| &*thread.events)
            .collect();
        assert_eq!(lists, self.propagated);
        assert_eq!(*machine.initial, self.initial);
        let writes = machine.writes.iter();
        let writes: Vec<_> = writes
            .map(|w| (w.thread.into(), w.address.into(), w.value))
            .collect();
        assert_eq!(writes, self.writes);
        let count = writes.len();
        let pairs = (0..count).flat_map(|a| (0..count).map(move |b| (a, b)));
        let before = |&(a, b): &(usize, usize)| machine.writes[b].before >> a & 1 == 1;
        assert_eq!(pairs.filter(before).collect::<Pairs>(), self.coherence);
        let threads: Vec<usize> = machine.barriers.iter().map(|b| b.thread.into()).collect();
        assert_eq!(threads, self.barriers);
        let open = (0..threads.len()).filter(|&b| machine.barriers[b].unacknowledged);
        assert_eq!(open.collect::<BTreeSet<_>>(), self.unacknowledged);
    }

    /// Coherence has no cycle and is transitive, and each thread's list holds the writes to an address
    /// in coherence order.
    pub fn assert_in_order(&self) {
        assert!(self.coherence.iter().all(|(a, b)| a != b));
        assert_eq!(closed(self.coherence.clone()), self.coherence);
        for thread in 0..self.propagated.len() {
            for address in 0..self.initial.len() {
                let writes = self.arrived_at(thread, address);
                let mut next = writes.windows(2).map(|two| (two[0], two[1]));
                assert!(next.all(|pair| self.coherence.contains(&pair)));
            }
        }
    }
}

fn write_event(number: usize) -> Event {
    Event::Write(number as u8)
}

fn barrier_event(number: usize) -> Event {
    Event::Barrier(number as u8)
}

/// Whether an event comes before another one in a list.
fn precedes(list: &[Event], first: Event, second: Event) -> bool {
    let place = |event| list.iter().position(|&other| other == event);
    place(first).zip(place(second)).is_some_and(|(a, b)| a < b)
}

/// The pairs, and those implied by transitivity.
fn closed(mut pairs: Pairs) -> Pairs {
    loop {
        let ends = pairs.iter().flat_map(|&(a, b)| {
            let behind = pairs.range((b, 0)..(b + 1, 0));
            behind.map(move |&(_, c)| (a, c))
        });
        let new: Vec<_> = ends.filter(|pair| !pairs.contains(pair)).collect();
        if new.is_empty() {
            return pairs;
        }
        pairs.extend(new);
    }
}
