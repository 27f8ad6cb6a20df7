//! What makes the labels of a case hard to tell apart.

use ordinary::{write, Case};
use std::collections::BTreeSet;

/// Labels that nothing or little tells apart.
pub const NEAR: [&str; 5] = [
    "threads without events, one order",
    "threads without events, several orders",
    "addresses without accesses, one value",
    "addresses with accesses, one value",
    "addresses, a greater value of lesser bytes",
];
pub const NEAR_COUNTS: &str = "threads without events, more pairs of lesser bytes";

/// Which of them a case has.
pub fn near(case: &Case) -> impl Iterator<Item = (&'static str, bool)> {
    let events = case.events.iter();
    let threads: BTreeSet<usize> = events.clone().map(|event| event.thread).collect();
    let accesses = events.filter(|event| !event.is_barrier());
    let addresses: BTreeSet<usize> = accesses.map(|event| event.address).collect();
    let values = |accessed: bool| -> Vec<u32> {
        let all = 0..case.addresses();
        let wanted = all.filter(|x| addresses.contains(x) == accessed);
        wanted.map(|x| case.initial[x]).collect()
    };
    let unlisted = (0..case.threads()).filter(|p| !threads.contains(p));
    let pairs = unlisted.map(|p| case.orders[p].pairs(case.events.len()));
    let orders: Vec<_> = pairs.collect();
    let counts: Vec<u32> = orders.iter().map(|pairs| pairs.len() as u32).collect();
    let there = [
        equal(&orders),
        several(&orders),
        equal(&values(false)),
        equal(&values(true)),
        otherwise(&case.initial),
    ];
    let near = NEAR.into_iter().zip(there);
    near.chain([(NEAR_COUNTS, otherwise(&counts))])
}

fn equal<T: Ord>(list: &[T]) -> bool {
    list.iter().collect::<BTreeSet<_>>().len() < list.len()
}

fn several<T: Ord>(list: &[T]) -> bool {
    list.iter().collect::<BTreeSet<_>>().len() > 1
}

/// Whether the bytes of two of the numbers compare otherwise than the numbers.
fn otherwise(list: &[u32]) -> bool {
    let bytes = |number: &u32| write::number((*number).into());
    let less = |a: &u32, b: &u32| a < b && bytes(a) > bytes(b);
    list.iter().any(|a| list.iter().any(|b| less(a, b)))
}
