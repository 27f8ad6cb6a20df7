//! Cases whose labels are hard to tell apart.

use super::any_order;
use super::names::any_name;
use super::program::program;
use crate::case::{Case, Event, Order};
use crate::limits::{ADDRESSES, EDITIONS, THREADS};
use crate::permutation::{fits, COUNT};
use crate::random::Random;
use crate::renumber::relabel;

/// Initial values: equal ones, and of 129, 255, 256 and 16,384 the greater have the lesser bytes.
const VALUES: [u32; 8] = [0, 0, 0, 5, 129, 255, 256, 16_384];

/// A case with threads that have no events and addresses that have no accesses, or with few of
/// them. Many initial values are equal, and many orders equal or nearly so. Labels come in any order.
pub fn tied(random: &mut Random) -> Case {
    let edition = random.pick(&EDITIONS);
    let threads = THREADS - random.pick(&[0, 0, 0, 1, 2, 3]);
    let addresses = ADDRESSES - random.pick(&[0, 0, 0, 1, 2, 3]);
    let (listed, accessed) = (random.from_to(1, threads), random.from_to(1, addresses));
    let most = random.pick(&[0, 3, 6, 9, 18]);
    let count = random.below(most + 1);
    let mut case = program(random, edition, listed, accessed, count, 4);
    case.orders.resize(threads, Order::new());
    case.write_orders.resize(addresses, Vec::new());
    let few = random.from_to(1, VALUES.len());
    case.initial = (0..addresses)
        .map(|_| random.pick(&VALUES[..few]))
        .collect();
    for address in 0..addresses {
        let mut stores = case.stores_to(address);
        random.shuffle(&mut stores);
        case.write_orders[address] = stores;
    }
    near_orders(random, &mut case);
    case.name = any_name(random);
    relabelled(random, &case)
}

/// Gives each thread one order as it is or a little off, or now and then another.
fn near_orders(random: &mut Random, case: &mut Case) {
    let count = case.events.len();
    let order = any_order(random, case);
    for p in 0..case.threads() {
        case.orders[p] = match random.below(8) {
            0 => any_order(random, case),
            1 | 2 if count > 0 => a_pair_off(random, &order, count),
            3 | 4 if count > 0 => last_row_off(random, &order, count),
            _ => order.clone(),
        };
    }
}

/// With a pair more or less.
fn a_pair_off(random: &mut Random, order: &Order, count: usize) -> Order {
    let (a, b) = (random.below(count), random.below(count));
    let mut new = order.clone();
    match order.has(a, b) {
        true => new.remove(a, b),
        false => new.insert(a, b),
    }
    new
}

/// The last event comes before another one and no more.
fn last_row_off(random: &mut Random, order: &Order, count: usize) -> Order {
    let mut new = order.clone();
    for b in 0..count {
        new.remove(count - 1, b);
    }
    new.insert(count - 1, random.below(count));
    new
}

/// The case by any two permutations that fit it.
pub fn relabelled(random: &mut Random, case: &Case) -> Case {
    let mut fitting = |labels| {
        let all: Vec<u64> = (0..COUNT).filter(|&q| fits(q, labels)).collect();
        random.pick(&all)
    };
    let (q, r) = (fitting(case.threads()), fitting(case.addresses()));
    relabel(case, q, r)
}

/// The thread of an event, its address or its value is another one. None if that is not found, and
/// the case stays readable.
pub fn one_event_off(random: &mut Random, case: &Case) -> Option<Case> {
    for _ in 0..20 {
        let mut new = case.clone();
        let event = random.below(case.events.len().max(1));
        let event = new.events.get_mut(event)?;
        match random.below(3) {
            0 => event.thread = random.below(case.threads()),
            1 if !event.is_barrier() => event.address = random.below(case.addresses()),
            _ if !event.is_barrier() => event.value = random.below(6) as u32,
            _ => {}
        }
        if new != *case && new.fault() == 0 {
            return Some(new);
        }
    }
    None
}

/// One thread stores to one address, `count` times. All initial values are equal, and so are all
/// orders but for the last bytes: what comes after the last event.
pub fn last_rows_apart(random: &mut Random, edition: u32, count: usize) -> Case {
    let mut case = one_thread(edition, count);
    let order = Order::total(&case.write_orders[0]);
    for (p, own) in case.orders.iter_mut().enumerate() {
        *own = order.clone();
        own.insert(count - 1, p);
    }
    relabelled(random, &case)
}

/// One thread stores to one address, `count` times. All initial values are equal, and each order has
/// the first of all pairs, any number of them.
pub fn counts_apart(random: &mut Random, edition: u32, count: usize) -> Case {
    let mut case = one_thread(edition, count);
    for own in &mut case.orders {
        for pair in 0..random.below(count * count + 1) {
            own.insert(pair / count, pair % count);
        }
    }
    relabelled(random, &case)
}

fn one_thread(edition: u32, count: usize) -> Case {
    let mut case = Case::empty(THREADS, ADDRESSES);
    case.edition = edition;
    case.events = (0..count).map(|e| Event::store(0, 0, e as u32)).collect();
    case.write_orders[0] = (0..count).collect();
    case
}
