//! Executions whose threads see no more than they must.

use super::program::{any_program, interleaving, loads, message, own, reordered};
use super::program::{source_in, value_in, write_in};
use crate::case::{Case, Order};
use crate::random::Random;

/// The duties that a sparse order is given; each one left out may break rules.
#[derive(Clone, Copy, PartialEq, Eq)]
pub enum Duty {
    Transitive,
    OwnEvents,
    Values,
    Barrier,
    Readers,
}

impl Duty {
    pub const ALL: [Duty; 5] = [
        Duty::Transitive,
        Duty::OwnEvents,
        Duty::Values,
        Duty::Barrier,
        Duty::Readers,
    ];
}

/// An execution in which each thread sees a few pairs of one sequence and those that the rules then
/// ask for. With nothing left out it is accepted under both models.
pub fn sparse(random: &mut Random, left_out: Option<Duty>) -> Case {
    let (mut case, sequence) = any_sequence(random);
    let sequence = reordered(random, &case, &sequence, false);
    write_in(&mut case, &sequence);
    for l in loads(&case) {
        case.events[l].value = value_in(&case, &sequence, l);
    }
    let seen = Order::total(&sequence);
    let rarity = random.from_to(2, 60);
    for order in &mut case.orders {
        for (a, b) in seen.pairs(sequence.len()) {
            if random.once_in(rarity) {
                order.insert(a, b);
            }
        }
    }
    Filling {
        sequence,
        seen,
        left_out,
    }
    .fill(&mut case);
    case
}

/// A program and a sequence of its events: a message as it is listed, or any program.
fn any_sequence(random: &mut Random) -> (Case, Vec<usize>) {
    if random.once_in(3) {
        let case = message(random);
        let listing = (0..case.events.len()).collect();
        return (case, listing);
    }
    let barrier_once_in = random.from_to(2, 6);
    let case = any_program(random, barrier_once_in);
    let sequence = interleaving(random, &case);
    (case, sequence)
}

/// Adds pairs of one sequence until the rules hold.
struct Filling {
    sequence: Vec<usize>,
    seen: Order,
    left_out: Option<Duty>,
}

impl Filling {
    fn fill(&self, case: &mut Case) {
        let mut last = Vec::new();
        while last != case.orders {
            last = case.orders.clone();
            for duty in Duty::ALL {
                if self.left_out != Some(duty) {
                    self.meet(duty, case);
                }
            }
        }
    }

    fn meet(&self, duty: Duty, case: &mut Case) {
        match duty {
            Duty::Transitive => case.orders.iter_mut().for_each(Order::close),
            Duty::OwnEvents => self.own_events(case),
            Duty::Values => self.values(case),
            Duty::Barrier => self.barriers(case),
            Duty::Readers => self.readers(case),
        }
    }

    /// Inserts the pair of a and b that the sequence has.
    fn relate(&self, order: &mut Order, a: usize, b: usize) {
        if self.seen.has(a, b) {
            order.insert(a, b);
        } else if a != b {
            order.insert(b, a);
        }
    }

    fn own_events(&self, case: &mut Case) {
        for p in 0..case.threads() {
            for a in own(case, p) {
                for b in own(case, p) {
                    self.relate(&mut case.orders[p], a, b);
                }
            }
        }
    }

    fn values(&self, case: &mut Case) {
        let count = case.events.len();
        for p in 0..case.threads() {
            for l in loads(case) {
                let order = case.orders[p].clone();
                let own = |e: usize| case.events[e].thread == p;
                let paired = |e| (0..count).any(|d| order.has(e, d) || order.has(d, e));
                let sees = |e| own(e) || paired(e);
                if !sees(l) {
                    continue;
                }
                let source = source_in(case, &self.sequence, l);
                for s in case.stores_to(case.events[l].address) {
                    if sees(s) || source == Some(s) {
                        self.relate(&mut case.orders[p], s, l);
                        self.relate(&mut case.orders[p], s, source.unwrap_or(s));
                    }
                }
            }
        }
    }

    fn barriers(&self, case: &mut Case) {
        for (e, f) in before_barriers(case) {
            let p = case.events[f].thread;
            let later: Vec<usize> = own(case, p)
                .into_iter()
                .filter(|&d| case.orders[p].has(f, d))
                .collect();
            insert_everywhere(case, e, f, &later);
        }
    }

    fn readers(&self, case: &mut Case) {
        for (e, f) in before_barriers(case) {
            let p = case.events[f].thread;
            for l in loads(case) {
                let home = case.events[l].thread;
                let source = source_in(case, &self.sequence, l);
                let after = |s: usize| case.events[s].thread == p && case.orders[p].has(f, s);
                if source.is_some_and(after) {
                    let all = 0..case.events.len();
                    let later: Vec<usize> = all.filter(|&d| case.orders[home].has(l, d)).collect();
                    insert_everywhere(case, e, f, &later);
                }
            }
        }
    }
}

/// The pairs of an event and a barrier that stand so in the order of the barrier's thread.
fn before_barriers(case: &Case) -> Vec<(usize, usize)> {
    let barriers = (0..case.events.len()).filter(|&f| case.events[f].is_barrier());
    let pairs = barriers.flat_map(|f| (0..case.events.len()).map(move |e| (e, f)));
    pairs
        .filter(|&(e, f)| case.orders[case.events[f].thread].has(e, f))
        .collect()
}

/// Puts e before those of the later events that barrier f orders behind it.
fn insert_everywhere(case: &mut Case, e: usize, f: usize, later: &[usize]) {
    for &d in later {
        if case.events[f].orders(&case.events[e], &case.events[d]) {
            case.orders.iter_mut().for_each(|order| order.insert(e, d));
        }
    }
}
