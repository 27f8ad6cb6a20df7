//! Traces in which commits and barriers can make a cycle.

use super::{any_value, enabled, Mixture};
use crate::limits::{ADDRESSES, THREADS};
use crate::random::Random;
use crate::storage::{Machine, Step, Trace, LWSYNC};

/// What may lie between the steps of the ring.
const BETWEEN: Mixture = [0, 0, 0, 2, 0, 2, 1];

/// Some threads have a write to an address each and, behind a barrier, do one to the next one's. Each
/// second write is then committed before the next thread's first one. With the last of these there is a
/// cycle, but half of the time a barrier is left out. The first writes and the barriers may be other
/// threads', propagated there.
pub fn ring(random: &mut Random) -> Trace {
    let size = random.from_to(2, THREADS.min(ADDRESSES));
    let mut draft = Draft::new(random, size);
    let left_out = random.below(2 * size);
    let mut turns: Vec<usize> = (0..size).flat_map(|thread| [thread; 3]).collect();
    random.shuffle(&mut turns);
    let mut writes = vec![Vec::new(); size];
    let mut stage = vec![0; size];
    for thread in turns {
        stage[thread] += 1;
        match stage[thread] {
            1 => writes[thread].push(draft.first_write(random, thread)),
            2 if thread == left_out => {}
            2 => draft.barrier(random, thread),
            _ => writes[thread].push(draft.accept_write(random, thread, (thread + 1) % size)),
        }
        draft.between(random);
    }
    draft.commit_all(random, &writes);
    draft.trace
}

struct Draft {
    trace: Trace,
    machine: Machine,
}

impl Draft {
    /// With so many threads and addresses at least.
    fn new(random: &mut Random, least: usize) -> Draft {
        let threads = random.from_to(least, THREADS);
        let addresses = random.from_to(least, ADDRESSES);
        let trace = Trace {
            threads,
            initial: (0..addresses).map(|_| any_value(random)).collect(),
            steps: Vec::new(),
        };
        let machine = Machine::new(threads, trace.initial);
        Draft { trace, machine }
    }

    /// The thread, or half of the time any.
    fn thread_or_any(&self, random: &mut Random, thread: usize) -> usize {
        match random.once_in(2) {
            true => thread,
            false => random.below(self.trace.threads),
        }
    }

    fn push_if_enabled(&mut self, step: Step) {
        if self.machine.failing(step) == 0 {
            self.push(step);
        }
    }

    fn push(&mut self, step: Step) {
        if self.machine.failing(step) == 0 {
            self.machine.take(step);
        }
        self.trace.steps.push(step);
    }

    /// A write to the address of the thread's number. Hands back the write's number.
    fn first_write(&mut self, random: &mut Random, thread: usize) -> usize {
        let writer = self.thread_or_any(random, thread);
        let write = self.accept_write(random, writer, thread);
        self.push_if_enabled(Step::PropagateWrite { write, thread });
        write
    }

    fn accept_write(&mut self, random: &mut Random, thread: usize, address: usize) -> usize {
        let value = any_value(random);
        self.push(Step::AcceptWrite {
            thread,
            address,
            value,
        });
        self.machine.writes.len() - 1
    }

    fn barrier(&mut self, random: &mut Random, thread: usize) {
        let owner = self.thread_or_any(random, thread);
        let class = random.below(LWSYNC + 1);
        self.push(Step::AcceptBarrier {
            thread: owner,
            class,
        });
        let barrier = self.machine.barriers.len() - 1;
        self.push_if_enabled(Step::PropagateBarrier { barrier, thread });
    }

    fn between(&mut self, random: &mut Random) {
        if random.once_in(3) {
            self.push(enabled(random, &self.machine, BETWEEN));
        }
    }

    /// In any order.
    fn commit_all(&mut self, random: &mut Random, writes: &[Vec<usize>]) {
        let mut threads: Vec<usize> = (0..writes.len()).collect();
        random.shuffle(&mut threads);
        for thread in threads {
            let next = (thread + 1) % writes.len();
            let (first, second) = (writes[thread][1], writes[next][0]);
            self.push(Step::Commit { first, second });
            self.between(random);
        }
    }
}
