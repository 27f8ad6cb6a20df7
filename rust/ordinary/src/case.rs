//! A case: one candidate execution.

use crate::answer::{MISPLACED, RANGE, UNPRINTABLE};
use crate::limits::{
    ADDRESSES, DEPENDENCIES, EDITIONS, EVENTS, FIRST, NAME, PRINTABLE, SECOND, THREADS, VALUE,
};
use std::fmt;

#[derive(Clone, Copy, Debug, PartialEq, Eq)]
pub enum Kind {
    Load,
    Store,
    Sync,
    Lwsync,
}

impl Kind {
    /// Every kind, at its number.
    pub const ALL: [Kind; 4] = [Kind::Load, Kind::Store, Kind::Sync, Kind::Lwsync];

    /// How many of them an edition has: the first has no lwsync, which is the last.
    pub fn count(edition: u32) -> usize {
        match edition {
            SECOND => Kind::ALL.len(),
            _ => Kind::Lwsync as usize,
        }
    }
}

/// An event. A barrier's address and value mean nothing and are 0.
#[derive(Clone, Copy, Debug, PartialEq, Eq)]
pub struct Event {
    pub kind: Kind,
    pub thread: usize,
    pub address: usize,
    pub value: u32,
}

impl Event {
    pub fn load(thread: usize, address: usize, value: u32) -> Event {
        let kind = Kind::Load;
        Event {
            kind,
            thread,
            address,
            value,
        }
    }

    pub fn store(thread: usize, address: usize, value: u32) -> Event {
        let kind = Kind::Store;
        Event {
            kind,
            ..Event::load(thread, address, value)
        }
    }

    pub fn sync(thread: usize) -> Event {
        let kind = Kind::Sync;
        Event {
            kind,
            ..Event::load(thread, 0, 0)
        }
    }

    pub fn lwsync(thread: usize) -> Event {
        let kind = Kind::Lwsync;
        Event {
            kind,
            ..Event::sync(thread)
        }
    }

    /// Whether this is a sync or an lwsync.
    pub fn is_barrier(&self) -> bool {
        matches!(self.kind, Kind::Sync | Kind::Lwsync)
    }

    pub fn is_load(&self) -> bool {
        self.kind == Kind::Load
    }

    pub fn is_store(&self) -> bool {
        self.kind == Kind::Store
    }

    pub fn loads(&self, address: usize) -> bool {
        self.is_load() && self.address == address
    }

    pub fn stores(&self, address: usize) -> bool {
        self.is_store() && self.address == address
    }

    /// Whether this barrier orders an event before it and one after it. A sync orders any two; an
    /// lwsync orders loads and stores, but not a store before a load.
    pub fn orders(&self, earlier: &Event, later: &Event) -> bool {
        let access = !earlier.is_barrier() && !later.is_barrier();
        self.kind == Kind::Sync || access && !(earlier.is_store() && later.is_load())
    }
}

/// How an event depends on a load.
#[derive(Clone, Copy, Debug, PartialEq, Eq, PartialOrd, Ord)]
pub enum Class {
    Address,
    Data,
    Control,
}

impl Class {
    /// Every class, at its number.
    pub const ALL: [Class; 3] = [Class::Address, Class::Data, Class::Control];
}

/// Event `to` depends on load `from`. Dependencies rise by from, then by to, then by class.
#[derive(Clone, Copy, Debug, PartialEq, Eq, PartialOrd, Ord)]
pub struct Dependency {
    pub from: usize,
    pub to: usize,
    pub class: Class,
}

/// Why a dependency may not stand where it does.
#[derive(Clone, Copy, Debug, PartialEq, Eq)]
pub enum Unfit {
    FromNoLoad,
    NotEarlier,
    TwoThreads,
    ToBarrier,
    ToNoStore,
    NotAbove,
}

impl Unfit {
    pub const ALL: [Unfit; 6] = [
        Unfit::FromNoLoad,
        Unfit::NotEarlier,
        Unfit::TwoThreads,
        Unfit::ToBarrier,
        Unfit::ToNoStore,
        Unfit::NotAbove,
    ];
}

impl fmt::Display for Unfit {
    fn fmt(&self, f: &mut fmt::Formatter) -> fmt::Result {
        f.write_str(match self {
            Unfit::FromNoLoad => "only a load can be depended on",
            Unfit::NotEarlier => "the load must be listed before what depends on it",
            Unfit::TwoThreads => "both events must be of one thread",
            Unfit::ToBarrier => "only a load or a store can depend on a load",
            Unfit::ToNoStore => "only a store can depend on a load by data or control",
            Unfit::NotAbove => "dependencies must rise by from, then by to, then by class",
        })
    }
}

/// A set of pairs of events. Nothing is added by closure.
#[derive(Clone, Debug, PartialEq, Eq)]
pub struct Order {
    before: [[bool; EVENTS]; EVENTS],
}

impl Order {
    pub fn new() -> Order {
        Order {
            before: [[false; EVENTS]; EVENTS],
        }
    }

    /// Each of these events before all that are listed after it.
    pub fn total(events: &[usize]) -> Order {
        let mut order = Order::new();
        for (i, &a) in events.iter().enumerate() {
            for &b in &events[i + 1..] {
                order.insert(a, b);
            }
        }
        order
    }

    pub fn has(&self, a: usize, b: usize) -> bool {
        self.before[a][b]
    }

    pub fn insert(&mut self, a: usize, b: usize) {
        self.before[a][b] = true;
    }

    pub fn remove(&mut self, a: usize, b: usize) {
        self.before[a][b] = false;
    }

    /// The pairs of events below `count`, rising by the first and then by the second.
    pub fn pairs(&self, count: usize) -> Vec<(usize, usize)> {
        let all = (0..count).flat_map(|a| (0..count).map(move |b| (a, b)));
        all.filter(|&(a, b)| self.has(a, b)).collect()
    }

    /// Adds every pair that transitivity asks for.
    pub fn close(&mut self) {
        for middle in 0..EVENTS {
            for a in 0..EVENTS {
                if self.has(a, middle) {
                    for b in 0..EVENTS {
                        self.before[a][b] |= self.has(middle, b);
                    }
                }
            }
        }
    }
}

impl Default for Order {
    fn default() -> Order {
        Order::new()
    }
}

/// One candidate execution. It has as many addresses as initial values and as many threads as
/// orders. Pairs that name no event are spare room: nothing asks for them.
#[derive(Clone, Debug, PartialEq, Eq)]
pub struct Case {
    pub edition: u32,
    /// For each address, its first value.
    pub initial: Vec<u32>,
    pub events: Vec<Event>,
    /// In the first edition this is spare room: nothing asks for it.
    pub dependencies: Vec<Dependency>,
    /// For each address, its stores from first to last.
    pub write_orders: Vec<Vec<usize>>,
    /// For each thread, the order in which it sees events.
    pub orders: Vec<Order>,
    pub name: Vec<u8>,
}

impl Case {
    /// Of the first edition, no events, every initial value 0.
    pub fn empty(threads: usize, addresses: usize) -> Case {
        Case {
            edition: FIRST,
            initial: vec![0; addresses],
            events: Vec::new(),
            dependencies: Vec::new(),
            write_orders: vec![Vec::new(); addresses],
            orders: vec![Order::new(); threads],
            name: Vec::new(),
        }
    }

    pub fn threads(&self) -> usize {
        self.orders.len()
    }

    pub fn addresses(&self) -> usize {
        self.initial.len()
    }

    /// The events that store to an address, in listing order.
    pub fn stores_to(&self, address: usize) -> Vec<usize> {
        let all = 0..self.events.len();
        all.filter(|&e| self.events[e].stores(address)).collect()
    }

    pub fn has_lwsync(&self) -> bool {
        self.events.iter().any(|event| event.kind == Kind::Lwsync)
    }

    /// The dependencies that the case's edition lets it have.
    pub fn dependencies(&self) -> &[Dependency] {
        match self.edition {
            SECOND => &self.dependencies,
            _ => &[],
        }
    }

    /// Whether one event depends on another.
    pub fn depends(&self, from: usize, to: usize) -> bool {
        let mut all = self.dependencies().iter();
        all.any(|d| (d.from, d.to) == (from, to))
    }

    /// Why a dependency of two events of the case may not stand behind another one, if it may not.
    pub fn unfit(&self, dependency: Dependency, last: Option<Dependency>) -> Option<Unfit> {
        let Dependency { from, to, class } = dependency;
        let (load, other) = (&self.events[from], &self.events[to]);
        if !load.is_load() {
            Some(Unfit::FromNoLoad)
        } else if from >= to {
            Some(Unfit::NotEarlier)
        } else if load.thread != other.thread {
            Some(Unfit::TwoThreads)
        } else if other.is_barrier() {
            Some(Unfit::ToBarrier)
        } else if class != Class::Address && !other.is_store() {
            Some(Unfit::ToNoStore)
        } else if last.is_some_and(|last| dependency <= last) {
            Some(Unfit::NotAbove)
        } else {
            None
        }
    }

    /// 0, or the number that the reader would give for the first bad field.
    pub fn fault(&self) -> u32 {
        let faults = [
            self.counts_fault(),
            self.events_fault(),
            self.dependencies_fault(),
            self.write_orders_fault(),
            range_fault(self.name.len() <= NAME),
            self.name_fault(),
        ];
        faults.into_iter().find(|&f| f != 0).unwrap_or(0)
    }

    fn counts_fault(&self) -> u32 {
        let fits = EDITIONS.contains(&self.edition)
            && (1..=THREADS).contains(&self.threads())
            && (1..=ADDRESSES).contains(&self.addresses())
            && self.initial.iter().all(|v| (0..=VALUE).contains(v))
            && self.events.len() <= EVENTS;
        range_fault(fits)
    }

    fn events_fault(&self) -> u32 {
        let fits = |e: &Event| {
            let kind = (e.kind as usize) < Kind::count(self.edition);
            let access =
                e.is_barrier() || (e.address < self.addresses() && (0..=VALUE).contains(&e.value));
            kind && e.thread < self.threads() && access
        };
        range_fault(self.events.iter().all(fits))
    }

    fn dependencies_fault(&self) -> u32 {
        let all = self.dependencies();
        if all.len() > DEPENDENCIES {
            return RANGE;
        }
        let mut last = None;
        for &dependency in all {
            if dependency.from.max(dependency.to) >= self.events.len() {
                return RANGE;
            }
            if self.unfit(dependency, last).is_some() {
                return MISPLACED;
            }
            last = Some(dependency);
        }
        0
    }

    /// A list of too few or too many entries is 4: an entry is missing, or one is listed twice.
    fn write_orders_fault(&self) -> u32 {
        for (address, listed) in self.write_orders.iter().enumerate() {
            for (i, &e) in listed.iter().enumerate() {
                if e >= self.events.len() {
                    return RANGE;
                }
                if !self.events[e].stores(address) || listed[..i].contains(&e) {
                    return MISPLACED;
                }
            }
            if listed.len() != self.stores_to(address).len() {
                return MISPLACED;
            }
        }
        if self.write_orders.len() == self.addresses() {
            0
        } else {
            MISPLACED
        }
    }

    fn name_fault(&self) -> u32 {
        match unprintable(&self.name) {
            Some(_) => UNPRINTABLE,
            None => 0,
        }
    }
}

/// Where in a name the first byte stands that is not printable.
pub fn unprintable(name: &[u8]) -> Option<usize> {
    name.iter().position(|byte| !PRINTABLE.contains(byte))
}

fn range_fault(fits: bool) -> u32 {
    if fits {
        0
    } else {
        RANGE
    }
}
