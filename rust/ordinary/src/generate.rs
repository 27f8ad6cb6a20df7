//! Random cases, records and traces for the tests and the benchmark.

mod calls;
mod conditions;
mod damage;
mod logs;
mod names;
mod odd;
mod own_orders;
mod program;
mod sparse;
mod tied;
mod traces;

pub use calls::{any_buffer, any_permutation};
pub use conditions::{any_text, condition_text, text_of_length};
pub use damage::damaged;
pub use logs::{any_records, pieces, record_of, refused, short_records};
pub use names::{every_byte_of_a_name, printable};
pub use odd::{assert_odd_came_up, odd_records};
pub use own_orders::{breaking, own_orders};
pub use sparse::{sparse, Duty};
pub use tied::{counts_apart, last_rows_apart, one_event_off, relabelled, tied};
pub use traces::{accepted_trace, any_trace, mixed_trace, odd_traces, step_off_at, Mixture};

use crate::case::{Case, Event, Kind, Order};
use crate::limits::{
    ADDRESSES, DEPENDENCIES, EDITIONS, EVENTS, FIRST, NAME, PRINTABLE, SECOND, THREADS, VALUE,
};
use crate::random::Random;
use crate::write;
use names::any_name;
use program::{any_program, good_dependencies, interleaving, loads, program, reordered};
use program::{value_bit, value_in, write_in};

/// An accepted execution of `count` events with every thread and address in use: all threads see
/// all events in one order.
pub fn full(random: &mut Random, edition: u32, count: usize) -> Case {
    let mut case = program(random, edition, THREADS, ADDRESSES, count, 6);
    one_order(random, &mut case);
    case
}

/// As `full`, of any size.
pub fn sequential(random: &mut Random) -> Case {
    let mut case = any_program(random, 6);
    one_order(random, &mut case);
    case
}

fn one_order(random: &mut Random, case: &mut Case) {
    let sequence = interleaving(random, case);
    let sequence = reordered(random, case, &sequence, false);
    write_in(case, &sequence);
    for l in loads(case) {
        case.events[l].value = value_in(case, &sequence, l);
    }
    case.orders.fill(Order::total(&sequence));
}

/// An execution whose threads see different orders, their own loads reading from these. With few
/// barriers, most are accepted under PPCw, but for some that do not heed their dependencies.
pub fn apart(random: &mut Random) -> Case {
    let mut case = any_program(random, 20);
    let sequence = interleaving(random, &case);
    write_in(&mut case, &sequence);
    let loose = random.once_in(4);
    for p in 0..case.threads() {
        let own = reordered(random, &case, &sequence, loose);
        for l in loads(&case) {
            if case.events[l].thread == p {
                case.events[l].value = value_in(&case, &own, l);
            }
        }
        case.orders[p] = Order::total(&own);
    }
    case
}

/// A few events with random values and orders.
pub fn tiny(random: &mut Random) -> Case {
    let edition = random.pick(&EDITIONS);
    let threads = random.from_to(1, 3.min(THREADS));
    let addresses = random.from_to(1, 2.min(ADDRESSES));
    let count = random.below(6);
    let mut case = program(random, edition, threads, addresses, count, 4);
    for event in case.events.iter_mut().filter(|e| !e.is_barrier()) {
        event.value = random.below(3) as u32;
    }
    for address in 0..addresses {
        let mut stores = case.stores_to(address);
        random.shuffle(&mut stores);
        case.write_orders[address] = stores;
    }
    for p in 0..threads {
        case.orders[p] = any_order(random, &case);
    }
    case
}

fn any_order(random: &mut Random, case: &Case) -> Order {
    let mut sequence = interleaving(random, case);
    match random.below(8) {
        0 => random.shuffle(&mut sequence),
        1 | 2 => sequence.retain(|_| !random.once_in(4)),
        _ => {}
    }
    let mut order = Order::total(&sequence);
    if random.once_in(3) {
        for (a, b) in order.pairs(case.events.len()) {
            if random.once_in(3) {
                order.remove(a, b);
            }
        }
        if random.once_in(2) {
            order.close();
        }
    }
    order
}

/// The case with one to three small changes; it stays readable.
pub fn off(random: &mut Random, mut case: Case) -> Case {
    for _ in 0..random.from_to(1, 3) {
        change(random, &mut case);
    }
    case
}

fn change(random: &mut Random, case: &mut Case) {
    let count = case.events.len();
    if count == 0 {
        return;
    }
    let (a, b) = (random.below(count), random.below(count));
    let p = random.below(case.threads());
    let address = random.below(case.addresses());
    match random.below(9) {
        0 => case.orders[p].remove(a, b),
        1 => case.orders[p].insert(a, b),
        2 => {
            case.orders[p].remove(a, b);
            case.orders[p].insert(b, a);
        }
        3 => random.shuffle(&mut case.write_orders[address]),
        4 => case.initial[address] = random.below(3) as u32,
        5 => {
            let value = case.events[b].value;
            if !case.events[a].is_barrier() {
                case.events[a].value = value;
            }
        }
        6 => forget_own(case, a),
        7 => {
            if !case.events[a].is_barrier() {
                case.events[a].value ^= value_bit(random);
            }
        }
        _ if case.edition == FIRST => {}
        _ => change_of_second(random, case, a),
    }
}

/// The thread of event a has no pair of it any more.
fn forget_own(case: &mut Case, a: usize) {
    let order = &mut case.orders[case.events[a].thread];
    for b in 0..case.events.len() {
        order.remove(a, b);
        order.remove(b, a);
    }
}

/// The kind of event a if it is a barrier, or else the dependencies.
fn change_of_second(random: &mut Random, case: &mut Case, a: usize) {
    let kind = &mut case.events[a].kind;
    match *kind {
        Kind::Sync => *kind = Kind::Lwsync,
        Kind::Lwsync => *kind = Kind::Sync,
        _ => {
            let mut all = good_dependencies(case);
            random.shuffle(&mut all);
            all.truncate(random.below(DEPENDENCIES + 1));
            all.sort();
            case.dependencies = all;
        }
    }
}

/// The greatest record of an edition: every number as long as it gets, every pair in every order,
/// and in the second edition as many dependencies as there may be, from as few loads as that takes.
pub fn greatest(edition: u32) -> Case {
    let mut case = Case::empty(THREADS, ADDRESSES);
    case.edition = edition;
    case.initial.fill(VALUE);
    case.events = vec![Event::store(0, 0, VALUE); EVENTS];
    if edition == SECOND {
        let mut loads = 0;
        while good_dependencies(&case).len() < DEPENDENCIES {
            case.events[loads].kind = Kind::Load;
            loads += 1;
        }
        case.dependencies = good_dependencies(&case);
        case.dependencies.truncate(DEPENDENCIES);
    }
    case.write_orders[0] = case.stores_to(0);
    let all: Vec<usize> = (0..EVENTS).collect();
    for (a, b) in all.iter().flat_map(|&a| all.iter().map(move |&b| (a, b))) {
        case.orders.iter_mut().for_each(|order| order.insert(a, b));
    }
    case.name = vec![*PRINTABLE.end(); NAME];
    case
}

/// Any of the kinds of case above.
pub fn any_case(random: &mut Random) -> Case {
    let mut case = match random.below(10) {
        0 => sequential(random),
        1 => apart(random),
        2 => sparse(random, None),
        3 => {
            let duty = random.pick(&Duty::ALL);
            sparse(random, Some(duty))
        }
        4 => sparse(random, Some(Duty::Readers)),
        5 => {
            let case = sequential(random);
            off(random, case)
        }
        6 => {
            let case = sparse(random, None);
            off(random, case)
        }
        _ => tiny(random),
    };
    case.name = any_name(random);
    case
}

/// A record, now and then with bytes behind it or damaged.
pub fn any_record(random: &mut Random) -> Vec<u8> {
    let case = any_case(random);
    let mut record = write::record(&case);
    if random.once_in(4) {
        record = damaged(random, &case);
    }
    if random.once_in(4) {
        let behind = random.below(6);
        record.extend(random.bytes(behind));
    }
    record
}
