//! Records on which a quick reader may go wrong: every number of a record written otherwise, every end
//! of the bytes, and every count of pairs.

use super::one_order;
use super::program::program;
use crate::answer::{ENDS, FORM, MISPLACED, OF_READING, RANGE};
use crate::case::{Case, Event};
use crate::limits::{EDITIONS, EVENTS, FIRST, GROUPS, SECOND, THREADS, VALUE};
use crate::random::Random;
use crate::tally::Tally;
use crate::write::{number, numbers, record};

/// The places of a pair in an order.
const PAIRS: [&str; 4] = ["row's front", "inside a row", "row's end", "last row"];
/// The fields of an event.
const FIELDS: [&str; 4] = ["kind", "thread", "address", "value"];
/// What else a record has of numbers.
const OTHERS: [&str; 4] = ["head", "dependencies", "write orders", "counts"];
/// Records cut, with every count of pairs, and with all small orders.
const CUT: &str = "cut";
const LENGTHS: &str = "lengths of orders";
const SMALL: &str = "small orders";

/// Hands over each of these records with a word on what is odd in it, or where.
pub fn odd_records(visit: &mut impl FnMut(&'static str, &[u8])) {
    every_number(visit);
    every_end(visit);
    every_count(visit);
    every_small_order(visit);
}

/// Fails where reading these records did not give each number that it can, by what is odd.
pub fn assert_odd_came_up(tally: &Tally) {
    for place in PAIRS.into_iter().chain(FIELDS).chain(OTHERS) {
        tally.assert_each(place, [ENDS, FORM, RANGE], 100);
    }
    for place in PAIRS {
        tally.assert_each(place, [0, MISPLACED], 100);
    }
    for place in FIELDS {
        tally.assert_each(place, [0], 20);
    }
    tally.assert_each(CUT, [0], 10);
    tally.assert_each(CUT, [ENDS], 5_000);
    tally.assert_each(LENGTHS, [0, ENDS, RANGE, MISPLACED], 1_000);
    tally.assert_each(SMALL, OF_READING, 100);
}

/// Every number of some records written otherwise.
fn every_number(visit: &mut impl FnMut(&'static str, &[u8])) {
    for case in cases() {
        let places = places(&case);
        let mut visit = |i: usize, bytes: &[u8]| visit(places[i], bytes);
        let bound = case.events.len();
        written_otherwise(&record(&case), &numbers(&case), bound, &mut visit);
    }
}

/// Hands over bytes that begin with these numbers, with each number exchanged for others, and for itself
/// and others in odd forms; as a whole and cut behind it; and the number's place among them. Some of the
/// others are around the bound.
pub(super) fn written_otherwise(
    bytes: &[u8],
    numbers: &[u32],
    bound: usize,
    visit: &mut impl FnMut(usize, &[u8]),
) {
    let mut start = 0;
    for (i, &value) in numbers.iter().enumerate() {
        let end = start + number(value.into()).len();
        let before = numbers[i.saturating_sub(2)];
        for form in forms(value, before, bound) {
            let mut changed = [&bytes[..start], &form].concat();
            visit(i, &changed);
            changed.extend(&bytes[end..]);
            visit(i, &changed);
        }
        start = end;
    }
}

/// Some records cut at every byte.
fn every_end(visit: &mut impl FnMut(&'static str, &[u8])) {
    for case in cases() {
        let record = record(&case);
        (0..=record.len()).for_each(|size| visit(CUT, &record[..size]));
    }
}

/// For some counts of events, the front of all pairs in every length, and of those that rise; the
/// count right, one too small, and one too great with no pair behind the others and with one.
fn every_count(visit: &mut impl FnMut(&'static str, &[u8])) {
    for (i, events) in [0, 1, 2, 3, 24, EVENTS - 1, EVENTS].into_iter().enumerate() {
        let front = syncs(EDITIONS[i % EDITIONS.len()], events);
        let all = (0..events).flat_map(|a| (0..events).map(move |b| (a, b)));
        let rising = all.clone().filter(|(a, b)| a < b);
        for pairs in [all.collect::<Vec<_>>(), rising.collect()] {
            let bytes: Vec<u8> = pairs
                .iter()
                .flat_map(|&(a, b)| [a as u8, b as u8])
                .collect();
            for size in 0..=pairs.len() {
                for (count, behind) in [
                    (size.saturating_sub(1), &[0][..]),
                    (size, &[0]),
                    (size + 1, &[0]),
                    (size + 1, &[0, 0, 0]),
                ] {
                    let count = number(count as u64);
                    let record = [&front, &count, &bytes[..2 * size], behind].concat();
                    visit(LENGTHS, &record);
                }
            }
        }
    }
}

/// Two events, every count, and behind it all bytes up to a length out of a few.
fn every_small_order(visit: &mut impl FnMut(&'static str, &[u8])) {
    const BYTES: [u8; 5] = [0, 1, 2, 128, 129];
    const LENGTH: u32 = 6;
    let front = syncs(FIRST, 2);
    for count in 0..=5 {
        for length in 0..=LENGTH {
            for which in 0..BYTES.len().pow(length) {
                let byte = |i| BYTES[which / BYTES.len().pow(i) % BYTES.len()];
                let behind: Vec<u8> = (0..length).map(byte).collect();
                visit(SMALL, &[&front[..], &[count], &behind].concat());
            }
        }
    }
}

/// A record of one thread's syncs up to the count of its pairs.
fn syncs(edition: u32, events: usize) -> Vec<u8> {
    let mut case = Case::empty(1, 1);
    case.edition = edition;
    case.events = vec![Event::sync(0); events];
    let mut front = record(&case);
    // Behind it are the count of pairs and the length of the name.
    front.truncate(front.len() - 2);
    front
}

/// Of both editions, with the fewest and the most events, with full orders or rows and with sparse ones.
fn cases() -> Vec<Case> {
    let mut random = Random::new(50);
    let mut all = Vec::new();
    for edition in EDITIONS {
        for (threads, events) in [(1, 0), (1, 1), (2, 2), (THREADS, 12)] {
            all.push(total(&mut random, edition, threads, events));
            all.push(sparse(&mut random, edition, threads, events));
        }
    }
    for (edition, events) in [(FIRST, EVENTS), (SECOND, EVENTS - 1)] {
        let mut case = total(&mut random, edition, 1, events);
        keep_pairs(&mut case, |(a, _)| a % 4 == 0);
        all.push(case);
    }
    all.push(sparse(&mut random, FIRST, THREADS, EVENTS - 1));
    all.push(sparse(&mut random, SECOND, THREADS, EVENTS));
    all
}

/// Accepted, with all threads in one order.
fn total(random: &mut Random, edition: u32, threads: usize, events: usize) -> Case {
    let mut case = program(random, edition, threads, threads, events, 6);
    one_order(random, &mut case);
    case.name = b"odd".to_vec();
    case
}

/// With few pairs in a row, and rows without any.
fn sparse(random: &mut Random, edition: u32, threads: usize, events: usize) -> Case {
    let mut case = total(random, edition, threads, events);
    keep_pairs(&mut case, |_| random.once_in(12));
    case
}

fn keep_pairs(case: &mut Case, mut kept: impl FnMut((usize, usize)) -> bool) {
    for order in &mut case.orders {
        for (a, b) in order.pairs(case.events.len()) {
            if !kept((a, b)) {
                order.remove(a, b);
            }
        }
    }
}

/// Where in the record each of its numbers stands.
fn places(case: &Case) -> Vec<&'static str> {
    let [head, dependencies, write_orders, counts] = OTHERS;
    let mut places = vec![head; 3 + case.addresses()];
    places.push(counts);
    for event in &case.events {
        places.extend(if event.is_barrier() {
            &FIELDS[..2]
        } else {
            &FIELDS
        });
    }
    if case.edition == SECOND {
        places.push(counts);
        places.extend(vec![dependencies; 3 * case.dependencies.len()]);
    }
    let listed = case.write_orders.iter().map(Vec::len).sum();
    places.extend(vec![write_orders; listed]);
    for order in &case.orders {
        places.push(counts);
        let pairs = order.pairs(case.events.len());
        places.extend((0..pairs.len()).flat_map(|i| [place_of_pair(&pairs, i); 2]));
    }
    places.push(counts);
    places
}

fn place_of_pair(pairs: &[(usize, usize)], i: usize) -> &'static str {
    let [front, inside, end, last] = PAIRS;
    let row = |i: usize| pairs.get(i).map(|pair| pair.0);
    if row(i) == row(pairs.len() - 1) {
        last
    } else if row(i) != row(i + 1) {
        end
    } else if i == 0 || row(i) != row(i - 1) {
        front
    } else {
        inside
    }
}

/// Other numbers than this one: its neighbours, the one two before it, those at limits. Then numbers
/// of more groups, not in the shortest form, too great, or unfinished.
fn forms(value: u32, two_before: u32, bound: usize) -> Vec<Vec<u8>> {
    let near = [value.saturating_sub(1), value.saturating_add(1), two_before];
    let last = (bound as u32).saturating_sub(1);
    let limits = [0, last, last + 1, 64, 127, 128, VALUE];
    let others = near
        .into_iter()
        .chain(limits)
        .filter(|&other| other != value);
    let mut forms: Vec<Vec<u8>> = others.map(|other| number(other.into())).collect();
    let low = value as u8 | 128;
    forms.extend([&[low][..], &[low, 0], &[low, 1], &[low, 128, 0]].map(<[u8]>::to_vec));
    for last in [0, 1, 16, 128] {
        let mut form = vec![128; GROUPS];
        (form[0], form[GROUPS - 1]) = (low, last);
        forms.push(form);
    }
    forms
}
