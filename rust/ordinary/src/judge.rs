//! Rules 11 to 18, each as the definition says it.

use crate::answer::{Answer, MODEL};
use crate::case::{Case, Event, Kind};
use crate::limits::ADDRESSES;
use crate::read::read;

/// PPCw: rules 15 and 16 speak of a thread's own loads.
pub const PPCW: u64 = 0;
/// PPCs: they speak of every load that a thread sees.
pub const PPCS: u64 = 1;

/// The rules' numbers.
pub const RULES: std::ops::RangeInclusive<u32> = 11..=18;

/// Judges the record at the front of the bytes under a model.
pub fn judge(bytes: &[u8], model: u64) -> Answer {
    if model > PPCS {
        return Answer::refused(MODEL);
    }
    match read(bytes) {
        Ok(reading) => verdict_answer(&reading.case, model, reading.length),
        Err(refusal) => refusal.into(),
    }
}

/// Judges a case under a model.
pub fn judge_case(case: &Case, model: u64) -> Answer {
    if model > PPCS {
        return Answer::refused(MODEL);
    }
    match case.fault() {
        0 => verdict_answer(case, model, crate::write::size(case)),
        fault => Answer::refused(fault),
    }
}

fn verdict_answer(case: &Case, model: u64, length: usize) -> Answer {
    let number = verdict(case, model);
    let finals = if number == 0 {
        finals(case)
    } else {
        [0; ADDRESSES]
    };
    Answer {
        number,
        finals,
        ..Answer::done(length)
    }
}

/// The lowest broken rule of a case without fault, or 0.
pub fn verdict(case: &Case, model: u64) -> u32 {
    lowest_broken(case, model, true)
}

/// The same if V(p) held only the events of p's pairs, as source document 000 prints it.
pub fn printed_verdict(case: &Case, model: u64) -> u32 {
    lowest_broken(case, model, false)
}

/// The same if every lwsync were a sync.
pub fn verdict_with_syncs(case: &Case, model: u64) -> u32 {
    let mut case = case.clone();
    let events = case.events.iter_mut();
    for event in events.filter(|event| event.kind == Kind::Lwsync) {
        event.kind = Kind::Sync;
    }
    verdict(&case, model)
}

/// The same without dependencies.
pub fn verdict_without_dependencies(case: &Case, model: u64) -> u32 {
    let dependencies = Vec::new();
    let case = Case {
        dependencies,
        ..case.clone()
    };
    verdict(&case, model)
}

/// The same if values had 16 bits.
pub fn verdict_with_16_bits(case: &Case, model: u64) -> u32 {
    let mut case = case.clone();
    let stored = case.events.iter_mut().map(|event| &mut event.value);
    for value in case.initial.iter_mut().chain(stored) {
        *value &= 0xffff;
    }
    verdict(&case, model)
}

fn lowest_broken(case: &Case, model: u64, sees_own: bool) -> u32 {
    let judged = Judged {
        case,
        model,
        sees_own,
    };
    let mut rules = RULES;
    rules.find(|&rule| !judged.holds(rule)).unwrap_or(0)
}

/// What each address holds at the end; 0 past the last address.
pub fn finals(case: &Case) -> [u32; ADDRESSES] {
    let mut finals = [0; ADDRESSES];
    finals[..case.addresses()].copy_from_slice(&case.initial);
    for (last, written) in finals.iter_mut().zip(&case.write_orders) {
        if let Some(&store) = written.last() {
            *last = case.events[store].value;
        }
    }
    finals
}

struct Judged<'a> {
    case: &'a Case,
    model: u64,
    /// Whether a thread sees all its own events, paired or not.
    sees_own: bool,
}

impl Judged<'_> {
    fn holds(&self, rule: u32) -> bool {
        let mut threads = 0..self.case.threads();
        threads.all(|p| match rule {
            11 => self.irreflexive(p) && self.transitive(p),
            12 => self.total_on_own(p),
            13 => self.program_order(p),
            14 => self.coherence(p),
            15 => self.value_is_known(p),
            16 => self.value_is_latest(p),
            17 => self.barrier_orders(p),
            18 => self.barrier_orders_readers(p),
            _ => unreachable!("no rule {rule}"),
        })
    }

    fn events(&self) -> std::ops::Range<usize> {
        0..self.case.events.len()
    }

    fn event(&self, e: usize) -> &Event {
        &self.case.events[e]
    }

    fn before(&self, p: usize, a: usize, b: usize) -> bool {
        self.case.orders[p].has(a, b)
    }

    fn before_everywhere(&self, a: usize, b: usize) -> bool {
        let mut threads = 0..self.case.threads();
        threads.all(|q| self.before(q, a, b))
    }

    /// The events of thread p, in program order.
    fn own(&self, p: usize) -> impl Iterator<Item = usize> + Clone + '_ {
        self.events().filter(move |&e| self.event(e).thread == p)
    }

    /// Whether e is in V(p): it stands in some pair of p's order or is an event of thread p.
    fn sees(&self, p: usize, e: usize) -> bool {
        let mut others = self.events();
        self.sees_own && self.event(e).thread == p
            || others.any(|d| self.before(p, e, d) || self.before(p, d, e))
    }

    fn stores_to(&self, address: usize) -> impl Iterator<Item = usize> + '_ {
        self.events()
            .filter(move |&e| self.event(e).stores(address))
    }

    /// The loads that rules 15 and 16 speak of.
    fn applicable_loads(&self, p: usize) -> impl Iterator<Item = usize> + '_ {
        let loads = self.events().filter(|&e| self.event(e).is_load());
        loads.filter(move |&l| match self.model {
            PPCW => self.event(l).thread == p,
            _ => self.sees(p, l),
        })
    }

    /// The syncs and lwsyncs of thread p.
    fn barriers(&self, p: usize) -> impl Iterator<Item = usize> + '_ {
        self.own(p).filter(|&f| self.event(f).is_barrier())
    }

    fn irreflexive(&self, p: usize) -> bool {
        self.events().all(|e| !self.before(p, e, e))
    }

    fn transitive(&self, p: usize) -> bool {
        let after = |a| self.events().filter(move |&b| self.before(p, a, b));
        self.events()
            .all(|a| after(a).all(|b| after(b).all(|c| self.before(p, a, c))))
    }

    fn total_on_own(&self, p: usize) -> bool {
        let ordered = |a, b| a == b || self.before(p, a, b) || self.before(p, b, a);
        self.own(p).all(|a| self.own(p).all(|b| ordered(a, b)))
    }

    fn program_order(&self, p: usize) -> bool {
        let kept = |a, b| {
            let (first, second) = (self.event(a), self.event(b));
            first.is_barrier()
                || second.is_barrier()
                || first.address == second.address
                || self.case.depends(a, b)
        };
        let mut pairs = self
            .own(p)
            .flat_map(|b| self.own(p).take_while(move |&a| a < b).map(move |a| (a, b)));
        pairs.all(|(a, b)| !kept(a, b) || self.before(p, a, b))
    }

    fn coherence(&self, p: usize) -> bool {
        (0..self.case.addresses()).all(|x| {
            let written = &self.case.write_orders[x];
            let position = |s| written.iter().position(|&w| w == s);
            self.stores_to(x).all(|s| {
                self.stores_to(x)
                    .all(|t| !self.before(p, s, t) || position(s) < position(t))
            })
        })
    }

    fn value_is_known(&self, p: usize) -> bool {
        self.applicable_loads(p).all(|l| {
            let Event { address, value, .. } = *self.event(l);
            let mut stores = self.stores_to(address);
            value == self.case.initial[address] || stores.any(|s| self.before(p, s, l))
        })
    }

    fn value_is_latest(&self, p: usize) -> bool {
        self.applicable_loads(p).all(|l| {
            let Event { address, value, .. } = *self.event(l);
            let between = |s| {
                self.stores_to(address)
                    .any(|t| t != s && self.before(p, s, t) && self.before(p, t, l))
            };
            self.stores_to(address)
                .filter(|&s| self.sees(p, s))
                .all(|s| between(s) || value == self.event(s).value || self.before(p, l, s))
        })
    }

    fn barrier_orders(&self, p: usize) -> bool {
        self.barriers(p).all(|f| {
            let later = self.own(p).filter(|&d| self.before(p, f, d));
            self.orders(p, f, later)
        })
    }

    fn barrier_orders_readers(&self, p: usize) -> bool {
        self.barriers(p).all(|f| {
            let stores = self
                .own(p)
                .filter(|&s| self.event(s).is_store() && self.before(p, f, s));
            let mut readers = stores.flat_map(|s| self.readers(s));
            readers.all(|l| {
                let home = self.event(l).thread;
                let later = self.events().filter(|&d| self.before(home, l, d));
                self.orders(p, f, later)
            })
        })
    }

    /// Whether all that p sees before barrier f comes, everywhere, before those of the later events
    /// that f orders behind it.
    fn orders(&self, p: usize, f: usize, later: impl Iterator<Item = usize> + Clone) -> bool {
        let asked = |e, d| self.event(f).orders(self.event(e), self.event(d));
        let mut earlier = self.events().filter(|&e| self.before(p, e, f));
        earlier.all(|e| {
            let mut later = later.clone();
            later.all(|d| !asked(e, d) || self.before_everywhere(e, d))
        })
    }

    /// The loads that read from store s.
    fn readers(&self, s: usize) -> impl Iterator<Item = usize> + '_ {
        let address = self.event(s).address;
        let loads = self.events().filter(move |&l| self.event(l).loads(address));
        loads.filter(move |&l| self.reads_from(l, s))
    }

    /// Whether load l reads from store s of the same address.
    fn reads_from(&self, l: usize, s: usize) -> bool {
        let p = self.event(l).thread;
        let address = self.event(s).address;
        let overtaken = |t| t == s || !self.before(p, t, l) || self.before(p, t, s);
        self.before(p, s, l) && self.stores_to(address).all(overtaken)
    }
}
