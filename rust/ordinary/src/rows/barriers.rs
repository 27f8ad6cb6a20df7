//! Rules 17 and 18 by the columns of all threads joined.

use super::judged::{last, Judged};
use super::{bits, Rows, Set, SYNC};
use crate::limits::EVENTS;

pub struct Barriers<'a> {
    judged: &'a Judged<'a>,
    /// For each event, the set of those before it in every order.
    before_everywhere: Rows,
}

impl<'a> Barriers<'a> {
    pub fn new(judged: &'a Judged<'a>) -> Barriers<'a> {
        let mut before_everywhere = [Set::MAX; EVENTS];
        for before in &judged.before[..judged.case.threads] {
            for (joined, column) in before_everywhere.iter_mut().zip(before) {
                *joined &= column;
            }
        }
        Barriers {
            judged,
            before_everywhere,
        }
    }

    pub fn lowest_broken(&self) -> u32 {
        if !self.all(|p, f| self.later_own(p, f)) {
            return 17;
        }
        let later = self.later_of_readers();
        let union = |stores| bits(stores).fold(0, |all, s| all | later[s]);
        if !self.all(|p, f| union(self.later_own(p, f) & self.judged.stores)) {
            return 18;
        }
        0
    }

    /// Whether each thread's barriers order what comes before them and what is given for them.
    #[inline(always)]
    fn all(&self, later: impl Fn(usize, usize) -> Set) -> bool {
        (0..self.judged.case.threads).all(|p| {
            let mut barriers = bits(self.judged.own[p] & self.judged.barriers);
            barriers.all(|f| self.orders(p, f, later(p, f)))
        })
    }

    /// The events of thread p after its barrier f.
    fn later_own(&self, p: usize, f: usize) -> Set {
        self.judged.case.after[p][f] & self.judged.own[p]
    }

    /// For each store behind a barrier of its thread, what comes after a load that reads from it, in
    /// the order of the load's thread.
    fn later_of_readers(&self) -> Rows {
        let judged = self.judged;
        let mut later = [0; EVENTS];
        let behind = self.stores_behind();
        for l in bits(judged.loads) {
            let event = &judged.case.events[l];
            let home = usize::from(event.thread);
            let (after, before) = (&judged.case.after[home], &judged.before[home]);
            let stores = before[l] & judged.stores_to[usize::from(event.address)];
            if stores & behind != 0 {
                let s = last(after, stores);
                if stores & !before[s] == 1 << s {
                    later[s] |= after[l];
                }
            }
        }
        later
    }

    /// The stores behind a barrier of their own thread.
    fn stores_behind(&self) -> Set {
        let judged = self.judged;
        let threads = 0..judged.case.threads;
        let behind = threads.flat_map(|p| {
            let barriers = bits(judged.own[p] & judged.barriers);
            barriers.map(move |f| self.later_own(p, f))
        });
        judged.stores & behind.fold(0, |all, later| all | later)
    }

    /// Whether everything before barrier f in p's order comes, in every order, before those of
    /// `later` that f orders behind it.
    fn orders(&self, p: usize, f: usize, later: Set) -> bool {
        let judged = self.judged;
        let earlier = judged.before[p][f];
        if judged.case.events[f].kind == SYNC {
            return self.all_before(earlier, later);
        }
        self.all_before(earlier & judged.loads, later & !judged.barriers)
            && self.all_before(earlier & judged.stores, later & judged.stores)
    }

    /// Whether all of `earlier` comes before all of `later` in every order.
    fn all_before(&self, earlier: Set, later: Set) -> bool {
        bits(later).all(|d| earlier & !self.before_everywhere[d] == 0)
    }
}
