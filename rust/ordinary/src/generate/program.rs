//! Random programs, and sequences of their events.

use crate::case::{Case, Class, Dependency, Event};
use crate::limits::{ADDRESSES, DEPENDENCIES, EDITIONS, EVENTS, SECOND, THREADS, VALUE};
use crate::random::Random;

pub fn any_program(random: &mut Random, barrier_once_in: usize) -> Case {
    let edition = random.pick(&EDITIONS);
    let threads = random.from_to(1, THREADS);
    let addresses = random.from_to(1, ADDRESSES);
    // Long ones take the plain implementation long, so they are not many.
    let most = if random.once_in(32) {
        EVENTS
    } else {
        random.pick(&[4, 8, 12, 24]).min(EVENTS)
    };
    let count = random.below(most + 1);
    program(random, edition, threads, addresses, count, barrier_once_in)
}

/// Events of random kinds, threads and addresses. Stores have values; orders are still empty.
pub fn program(
    random: &mut Random,
    edition: u32,
    threads: usize,
    addresses: usize,
    count: usize,
    barrier_once_in: usize,
) -> Case {
    let mut case = Case::empty(threads, addresses);
    case.edition = edition;
    for value in &mut case.initial {
        *value = if random.once_in(3) {
            any_value(random)
        } else {
            0
        };
    }
    for _ in 0..count {
        let thread = random.below(threads);
        let address = random.below(addresses);
        case.events.push(if random.once_in(barrier_once_in) {
            any_barrier(random, edition, thread)
        } else {
            any_access(random, thread, address)
        });
    }
    depend(random, &mut case);
    case
}

/// Accesses, a barrier and a store of a flag by thread 0, and by thread 1 a load of that flag and
/// further accesses; perhaps a third thread with an access.
pub fn message(random: &mut Random) -> Case {
    let flag = 0;
    let mut case = Case::empty(random.from_to(2, 3.min(THREADS)), ADDRESSES);
    case.edition = random.pick(&EDITIONS);
    let accesses = |random: &mut Random, events: &mut Vec<Event>, thread, most| {
        for _ in 0..random.from_to(1, most) {
            let address = random.from_to(1, ADDRESSES - 1);
            events.push(any_access(random, thread, address));
        }
    };
    let mut events = Vec::new();
    accesses(random, &mut events, 0, 2);
    events.push(any_barrier(random, case.edition, 0));
    events.push(Event::store(0, flag, 1));
    events.push(Event::load(1, flag, 0));
    accesses(random, &mut events, 1, 2);
    if case.threads() > 2 {
        accesses(random, &mut events, 2, 1);
    }
    case.events = events;
    depend(random, &mut case);
    case
}

/// A load, whose value is still 0, or a store.
fn any_access(random: &mut Random, thread: usize, address: usize) -> Event {
    match random.below(2) {
        0 => Event::load(thread, address, 0),
        _ => Event::store(thread, address, any_value(random)),
    }
}

fn any_barrier(random: &mut Random, edition: u32, thread: usize) -> Event {
    if edition == SECOND && !random.once_in(3) {
        Event::lwsync(thread)
    } else {
        Event::sync(thread)
    }
}

/// Gives a case of the second edition some of the dependencies that it may have.
fn depend(random: &mut Random, case: &mut Case) {
    if case.edition != SECOND {
        return;
    }
    let rarity = random.from_to(1, 8);
    let mut all = good_dependencies(case);
    all.retain(|_| random.once_in(rarity));
    all.truncate(DEPENDENCIES);
    case.dependencies = all;
}

/// Every dependency that fits the events, rising.
pub fn good_dependencies(case: &Case) -> Vec<Dependency> {
    let count = case.events.len();
    let pairs = (0..count).flat_map(|from| (0..count).map(move |to| (from, to)));
    let with_class = |(from, to)| Class::ALL.map(|class| Dependency { from, to, class });
    let all = pairs.flat_map(with_class);
    all.filter(|&dependency| case.unfit(dependency, None).is_none())
        .collect()
}

/// Often small, so that values come up again; now and then such a one with another bit.
fn any_value(random: &mut Random) -> u32 {
    match random.below(8) {
        0 => random.of_any_width(VALUE),
        1 => VALUE - random.below(2) as u32,
        2 => random.below(6) as u32 | value_bit(random),
        _ => random.below(6) as u32,
    }
}

/// Any bit of a value.
pub fn value_bit(random: &mut Random) -> u32 {
    1 << random.from_to(0, VALUE.ilog2() as usize)
}

/// All events in an order that keeps each thread's program order.
pub fn interleaving(random: &mut Random, case: &Case) -> Vec<usize> {
    let mut queues: Vec<_> = (0..case.threads())
        .map(|p| own(case, p).into_iter())
        .collect();
    let mut turns: Vec<usize> = case.events.iter().map(|e| e.thread).collect();
    random.shuffle(&mut turns);
    let next = |p: usize| queues[p].next().expect("a turn for each event");
    turns.into_iter().map(next).collect()
}

/// The sequence after some exchanges of neighbours. The order of stores to an address stays, and so
/// does all that rule 13 orders; dependent events may be exchanged where they are `loose`.
pub fn reordered(random: &mut Random, case: &Case, sequence: &[usize], loose: bool) -> Vec<usize> {
    let mut new = sequence.to_vec();
    for _ in 0..random.below(3 * new.len() + 1) {
        let i = random.below(new.len());
        let (a, b) = (new[i], new[(i + 1) % new.len()]);
        let (first, second) = (case.events[a], case.events[b]);
        let both_store = first.is_store() && second.stores(first.address);
        let kept = first.thread == second.thread
            && (first.is_barrier()
                || second.is_barrier()
                || first.address == second.address
                || !loose && case.depends(a, b));
        if i + 1 < new.len() && !kept && !both_store {
            new.swap(i, i + 1);
        }
    }
    new
}

pub fn own(case: &Case, p: usize) -> Vec<usize> {
    let all = 0..case.events.len();
    all.filter(|&e| case.events[e].thread == p).collect()
}

pub fn loads(case: &Case) -> Vec<usize> {
    let all = 0..case.events.len();
    all.filter(|&e| case.events[e].is_load()).collect()
}

/// Makes the write orders those of the sequence.
pub fn write_in(case: &mut Case, sequence: &[usize]) {
    for address in 0..case.addresses() {
        let stores = sequence.iter().copied();
        let stores = stores.filter(|&e| case.events[e].stores(address));
        case.write_orders[address] = stores.collect();
    }
}

/// The last store before load l in the sequence.
pub fn source_in(case: &Case, sequence: &[usize], l: usize) -> Option<usize> {
    let earlier = sequence.iter().copied().take_while(|&e| e != l);
    earlier
        .filter(|&e| case.events[e].stores(case.events[l].address))
        .last()
}

pub fn value_in(case: &Case, sequence: &[usize], l: usize) -> u32 {
    match source_in(case, sequence, l) {
        Some(s) => case.events[s].value,
        None => case.initial[case.events[l].address],
    }
}
