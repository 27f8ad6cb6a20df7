//! Executions in which each thread sees all events in an order of its own, and such as break a rule.

use super::program::{loads, value_bit};
use super::{forget_own, full};
use crate::case::{Case, Event, Order};
use crate::judge::RULES;
use crate::random::Random;

/// As `full`, but each thread sees all events in an order of its own.
pub fn own_orders(random: &mut Random, edition: u32, count: usize) -> Case {
    let case = full(random, edition, count);
    let kept = Kept::new(&case);
    let threads = 0..case.threads();
    let orders = threads.map(|p| kept.reordered(random, p, None)).collect();
    Case {
        orders,
        ..case.clone()
    }
}

/// A case like this one, whose threads see all events and which is accepted under PPCs, but changed so
/// that most likely a rule is broken and none below it.
pub fn breaking(random: &mut Random, case: &Case, rule: u32) -> Case {
    let mut new = case.clone();
    let count = case.events.len();
    let p = random.below(case.threads());
    match rule {
        11 => {
            let (a, b) = random.pick(&case.orders[p].pairs(count));
            new.orders[p].remove(a, b);
            if random.once_in(2) {
                new.orders[p].insert(b, a);
            }
        }
        12 => forget_own(&mut new, random.below(count)),
        15 => new.initial[random.below(case.addresses())] ^= value_bit(random),
        _ => new.orders[p] = Kept::new(case).reordered(random, p, Some(rule)),
    }
    new
}

/// What keeps a case accepted while its threads' orders change.
struct Kept<'a> {
    case: &'a Case,
    /// The pairs that rules 17 and 18 ask of every thread.
    by_barriers: Order,
    by_readers: Order,
    /// For each event, whether it is a load that reads from a store behind a barrier of that thread.
    reads_behind: Vec<bool>,
}

impl Kept<'_> {
    fn new(case: &Case) -> Kept<'_> {
        let mut kept = Kept {
            case,
            by_barriers: Order::new(),
            by_readers: Order::new(),
            reads_behind: vec![false; case.events.len()],
        };
        let sources: Vec<_> = loads(case)
            .into_iter()
            .map(|l| (l, source(case, l)))
            .collect();
        for f in 0..case.events.len() {
            if case.events[f].is_barrier() {
                kept.add_barrier(f, &sources);
            }
        }
        kept
    }

    /// Adds what barrier f asks for, with each load's source.
    fn add_barrier(&mut self, f: usize, sources: &[(usize, Option<usize>)]) {
        let case = self.case;
        let p = case.events[f].thread;
        let all = || 0..case.events.len();
        let behind = |&d: &usize| case.events[d].thread == p && case.orders[p].has(f, d);
        let later: Vec<usize> = all().filter(behind).collect();
        let mut later_of_readers = vec![false; case.events.len()];
        for &(l, source) in sources {
            if source.is_some_and(|s| behind(&s)) {
                self.reads_behind[l] = true;
                let after = &case.orders[case.events[l].thread];
                all().for_each(|d| later_of_readers[d] |= after.has(l, d));
            }
        }
        for e in all().filter(|&e| case.orders[p].has(e, f)) {
            later.iter().for_each(|&d| self.by_barriers.insert(e, d));
            for d in all().filter(|&d| later_of_readers[d]) {
                self.by_readers.insert(e, d);
            }
        }
    }

    /// Thread p's order after many exchanges of neighbours. All rules are heeded but one.
    fn reordered(&self, random: &mut Random, p: usize, left_out: Option<u32>) -> Order {
        let mut sequence = sequence(self.case, p);
        let count = sequence.len();
        for _ in 0..if count > 1 { 8 * count } else { 0 } {
            let i = random.below(count - 1);
            let (a, b) = (sequence[i], sequence[i + 1]);
            let mut heeded = RULES.filter(|&rule| Some(rule) != left_out);
            if !heeded.any(|rule| self.keeps(rule, p, a, b)) {
                sequence.swap(i, i + 1);
            }
        }
        Order::total(&sequence)
    }

    /// Whether a rule keeps a before b in thread p's order.
    fn keeps(&self, rule: u32, p: usize, a: usize, b: usize) -> bool {
        let (first, second) = (&self.case.events[a], &self.case.events[b]);
        let own = |event: &Event| event.thread == p;
        match rule {
            13 => own(first) && own(second) && in_program_order(self.case, a, b),
            14 => first.is_store() && second.stores(first.address),
            16 => {
                first.is_load() && second.stores(first.address)
                    || second.is_load() && first.stores(second.address)
            }
            // What comes before a thread's own barrier stays the same.
            17 => {
                self.by_barriers.has(a, b)
                    || own(first) != own(second)
                        && (own(first) && first.is_barrier() || own(second) && second.is_barrier())
            }
            // So does what comes after a thread's own load that reads from behind a barrier.
            18 => {
                self.by_readers.has(a, b)
                    || own(first) && self.reads_behind[a]
                    || own(second) && self.reads_behind[b]
            }
            _ => false,
        }
    }
}

/// Whether rule 13 orders two events of one thread.
fn in_program_order(case: &Case, a: usize, b: usize) -> bool {
    let (first, second) = (&case.events[a], &case.events[b]);
    first.is_barrier()
        || second.is_barrier()
        || first.address == second.address
        || case.depends(a, b)
}

/// All events as thread p sees them.
fn sequence(case: &Case, p: usize) -> Vec<usize> {
    let mut all: Vec<usize> = (0..case.events.len()).collect();
    let before = |e: &usize| {
        let others = 0..case.events.len();
        others.filter(|&d| case.orders[p].has(d, *e)).count()
    };
    all.sort_by_cached_key(before);
    all
}

/// The store that load l reads from: the last one before it, in the order of its thread.
fn source(case: &Case, l: usize) -> Option<usize> {
    let order = &case.orders[case.events[l].thread];
    let mut earlier = case.stores_to(case.events[l].address);
    earlier.retain(|&s| order.has(s, l));
    let is_last = |&s: &usize| !earlier.iter().any(|&t| order.has(s, t));
    earlier.iter().copied().find(is_last)
}
