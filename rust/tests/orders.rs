//! Rule 11 of orders alone: both tests agree with plain sets of pairs, and with what judging says.

use litmus::{judge_raw, rule11, rule11_by_threes, rule11_tests_agree, Rows};
use ordinary::judge::{verdict, PPCS};
use ordinary::limits::{EVENTS, THREADS};
use ordinary::random::Random;
use ordinary::{write, Case, Event, Order};

const INPUTS: usize = 20_000;
/// The rule's number.
const RULE: u32 = 11;

/// A random order: total, or what a few of its pairs close to.
fn any_order(random: &mut Random, count: usize) -> Order {
    let mut sequence: Vec<usize> = (0..count).collect();
    random.shuffle(&mut sequence);
    let mut order = Order::total(&sequence);
    if random.once_in(3) {
        for (a, b) in order.pairs(count) {
            if random.below(4) > 0 {
                order.remove(a, b);
            }
        }
        order.close();
    }
    order
}

/// One pair put in or taken out.
fn off(random: &mut Random, order: &mut Order, count: usize) {
    let (a, b) = (random.below(count), random.below(count));
    if order.has(a, b) {
        order.remove(a, b);
    } else {
        order.insert(a, b);
    }
}

fn any_case(random: &mut Random) -> Case {
    let threads = random.from_to(1, THREADS);
    let count = random.below(EVENTS + 1);
    let mut case = Case::empty(threads, 1);
    case.events = vec![Event::load(0, 0, 0); count];
    case.orders = (0..threads).map(|_| any_order(random, count)).collect();
    if count > 0 && random.once_in(2) {
        let p = random.below(threads);
        off(random, &mut case.orders[p], count);
    }
    case
}

/// The case's orders as rows, anything in the room beyond its threads and events.
fn rows_of(random: &mut Random, case: &Case) -> Rows {
    let mut rows = [0; THREADS * EVENTS].map(|_: u64| random.number());
    let count = case.events.len();
    for (p, order) in case.orders.iter().enumerate() {
        for a in 0..count {
            let row = &mut rows[p * EVENTS + a];
            // Where there are as many events as bits, no bit is room beyond them.
            *row &= u64::MAX.checked_shl(count as u32).unwrap_or(0);
            *row |= (0..count).fold(0, |set, b| set | u64::from(order.has(a, b)) << b);
        }
    }
    rows
}

#[test]
fn both_tests_and_judging_agree_with_sets_of_pairs() {
    let mut random = Random::new(60);
    let mut broken = 0;
    for _ in 0..INPUTS {
        let case = any_case(&mut random);
        let rows = rows_of(&mut random, &case);
        let holds = verdict(&case, PPCS) != RULE;
        let (threads, count) = (case.threads(), case.events.len());
        assert_eq!(rule11(&rows, threads, count), Some(holds), "{case:?}");
        assert_eq!(rule11_by_threes(&rows, threads, count), Some(holds));
        assert!(rule11_tests_agree(&rows, threads, count), "{case:?}");
        let judged = judge_raw(&write::record(&case), PPCS);
        assert_eq!(judged.number != RULE, holds, "{case:?}");
        broken += usize::from(!holds);
    }
    println!("rule 11 is broken in {broken} of {INPUTS} inputs");
    assert!((INPUTS / 10..INPUTS * 9 / 10).contains(&broken));
}

/// Every number of threads and events that a case may have, none included, and more.
#[test]
fn any_counts() {
    let none: Rows = [0; THREADS * EVENTS];
    let all: Rows = [u64::MAX; THREADS * EVENTS];
    let counts = |most: usize| (0..most + 3).chain([1 << 32, usize::MAX]);
    for threads in counts(THREADS) {
        for events in counts(EVENTS) {
            let fits = threads <= THREADS && events <= EVENTS;
            for rows in [&none, &all] {
                assert!(rule11_tests_agree(rows, threads, events));
            }
            for test in [rule11, rule11_by_threes] {
                assert_eq!(test(&none, threads, events), fits.then_some(true));
                let holds = threads == 0 || events == 0;
                assert_eq!(test(&all, threads, events), fits.then_some(holds));
            }
        }
    }
}
