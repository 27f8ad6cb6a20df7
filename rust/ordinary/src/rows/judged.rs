//! Rules 11 to 16 as tests of whole rows and columns.

use super::barriers::Barriers;
use super::columns::columns;
use super::{bits, first, has, Case, Rows, Set, LOAD, STORE};
use crate::judge::PPCW;
use crate::limits::{ADDRESSES, EVENTS, THREADS};

/// The lowest broken rule, or 0. Columns are not needed for rule 11, nor joined ones before rule 17.
pub fn verdict(case: &Case, model: u64) -> u32 {
    let orders = &case.after[..case.threads];
    if !orders.iter().all(|after| strict_order(after, case.count)) {
        return 11;
    }
    let judged = Judged::new(case, model);
    match judged.lowest_broken() {
        0 if judged.barriers != 0 => Barriers::new(&judged).lowest_broken(),
        number => number,
    }
}

fn strict_order(after: &Rows, count: usize) -> bool {
    (0..count).all(|a| !has(after[a], a) && holds_rows_of_members(after, a))
}

/// Whether a's row holds the row of each of its members. A member of a member's row needs no visit:
/// that row is less than a's and holds its rows in turn.
#[inline(always)]
fn holds_rows_of_members(after: &Rows, a: usize) -> bool {
    let row = after[a];
    let mut left = row;
    while left != 0 {
        let b = first(left);
        if after[b] & !row != 0 {
            return false;
        }
        left &= !(after[b] | 1 << b);
    }
    true
}

/// A case with its sets of events and columns.
pub struct Judged<'a> {
    pub case: &'a Case,
    model: u64,
    /// For each thread and event, the set of those before it.
    pub before: [Rows; THREADS],
    /// For each thread, the events in some pair of its order and its own.
    seen: [Set; THREADS],
    pub own: [Set; THREADS],
    pub stores_to: [Set; ADDRESSES],
    /// For each address, its loads and stores.
    accesses_to: [Set; ADDRESSES],
    pub loads: Set,
    pub stores: Set,
    /// Syncs and lwsyncs.
    pub barriers: Set,
}

impl<'a> Judged<'a> {
    fn new(case: &'a Case, model: u64) -> Judged<'a> {
        let mut judged = Judged {
            case,
            model,
            before: [[0; EVENTS]; THREADS],
            seen: [0; THREADS],
            own: [0; THREADS],
            stores_to: [0; ADDRESSES],
            accesses_to: [0; ADDRESSES],
            loads: 0,
            stores: 0,
            barriers: 0,
        };
        judged.sort_events();
        for p in 0..case.threads {
            judged.before[p] = columns(&case.after[p], case.count);
            let union = |rows: &Rows| rows[..case.count].iter().fold(0, |all, row| all | row);
            judged.seen[p] = judged.own[p] | union(&case.after[p]) | union(&judged.before[p]);
        }
        judged
    }

    fn sort_events(&mut self) {
        for (e, event) in self.case.events().iter().enumerate() {
            let (bit, address) = (1 << e, usize::from(event.address));
            self.own[usize::from(event.thread)] |= bit;
            match event.kind {
                LOAD => {
                    self.loads |= bit;
                    self.accesses_to[address] |= bit;
                }
                STORE => {
                    self.stores |= bit;
                    self.stores_to[address] |= bit;
                    self.accesses_to[address] |= bit;
                }
                _ => self.barriers |= bit,
            }
        }
    }

    /// The lowest broken rule of 12 to 16, or 0.
    fn lowest_broken(&self) -> u32 {
        let mut rules = 12..=16;
        rules.find(|&rule| !self.holds(rule)).unwrap_or(0)
    }

    fn holds(&self, rule: u32) -> bool {
        (0..self.case.threads).all(|p| match rule {
            12 => self.total_on_own(p),
            13 => self.program_order(p),
            14 => self.coherence(p),
            15 => self.values_are_known(p),
            16 => self.values_are_latest(p),
            _ => unreachable!("no rule {rule}"),
        })
    }

    fn total_on_own(&self, p: usize) -> bool {
        let own = self.own[p];
        bits(own).all(|e| {
            let related = self.case.after[p][e] | self.before[p][e] | 1 << e;
            own & !related == 0
        })
    }

    fn program_order(&self, p: usize) -> bool {
        let own = self.own[p];
        bits(own).all(|e| {
            let event = &self.case.events[e];
            let kept = match event.kind {
                LOAD | STORE => self.barriers | self.accesses_to[usize::from(event.address)],
                _ => own,
            };
            let listed_later = Set::MAX << e << 1;
            let later = kept & own & listed_later | self.case.dependents[e];
            later & !self.case.after[p][e] == 0
        })
    }

    fn coherence(&self, p: usize) -> bool {
        (0..self.case.addresses).all(|x| {
            let mut earlier = 0;
            self.case.written(x).iter().all(|&s| {
                earlier |= 1 << s;
                self.case.after[p][usize::from(s) % EVENTS] & earlier == 0
            })
        })
    }

    fn applicable_loads(&self, p: usize) -> Set {
        let loads_of = match self.model {
            PPCW => self.own[p],
            _ => self.seen[p],
        };
        self.loads & loads_of
    }

    fn values_are_known(&self, p: usize) -> bool {
        bits(self.applicable_loads(p)).all(|l| {
            let event = &self.case.events[l];
            let address = usize::from(event.address);
            event.value == self.case.initial[address]
                || self.before[p][l] & self.stores_to[address] != 0
        })
    }

    /// All stores before a late one of those that come before the load need no visit.
    fn values_are_latest(&self, p: usize) -> bool {
        let after = &self.case.after[p];
        bits(self.applicable_loads(p)).all(|l| {
            let event = &self.case.events[l];
            let stores = self.stores_to[usize::from(event.address)];
            let earlier = self.before[p][l] & stores;
            let mut left = stores & self.seen[p] & !after[l];
            if earlier != 0 {
                left &= !self.before[p][last(after, earlier)];
            }
            bits(left).all(|s| after[s] & earlier != 0 || self.case.events[s].value == event.value)
        })
    }
}

/// A member of a set, which has one, with no other member after it in a strict order.
#[inline(always)]
pub fn last(after: &Rows, set: Set) -> usize {
    let mut e = first(set);
    let mut later = after[e] & set;
    while later != 0 {
        e = first(later);
        later &= after[e];
    }
    e
}
