//! Cases with anything in the room beyond their counts, and with numbers that may not stand there.

use crate::handed;
use litmus::{Case, ADDRESSES, DEPENDENCIES, EDITION_2, EVENTS, NAME_BYTES, THREADS};
use ordinary::random::Random;

/// Fills all room of a case without fault that is beyond its counts.
pub fn fill_spare_room(random: &mut Random, case: &mut Case) {
    case.initial[case.addresses..].fill_with(|| random.number() as u32);
    for e in 0..EVENTS {
        let listed = e < case.events;
        if !listed {
            (case.kind[e], case.thread[e]) = (random.byte(), random.byte());
        }
        if !listed || [Case::SYNC, Case::LWSYNC].contains(&case.kind[e]) {
            (case.address[e], case.value[e]) = (random.byte(), random.number() as u32);
        }
    }
    fill_dependencies(random, case);
    for x in 0..ADDRESSES {
        let listed = handed::writes(case, x).count();
        let used = if x < case.addresses { listed } else { 0 };
        case.writes[x * EVENTS..][used..EVENTS].fill_with(|| random.byte());
    }
    fill_rows(random, case);
    case.name[case.name_length..].fill_with(|| random.byte());
}

/// In the first edition the count too.
fn fill_dependencies(random: &mut Random, case: &mut Case) {
    let mut used = case.dependencies;
    if case.edition != u64::from(EDITION_2) {
        used = 0;
        case.dependencies = random.any_number() as usize;
    }
    for array in dependencies(case) {
        array[used..].fill_with(|| random.byte());
    }
}

/// The classes of dependencies, and the events that they go from and to.
pub fn dependencies(case: &mut Case) -> [&mut [u8; DEPENDENCIES]; 3] {
    [
        &mut case.dependency_class,
        &mut case.dependency_from,
        &mut case.dependency_to,
    ]
}

/// Whole rows beyond the counts, and the bits from the number of events on.
fn fill_rows(random: &mut Random, case: &mut Case) {
    let beyond = u64::MAX.checked_shl(case.events as u32).unwrap_or(0);
    for (i, row) in case.rows.iter_mut().enumerate() {
        let (p, a) = (i / EVENTS, i % EVENTS);
        let spare = if p < case.threads && a < case.events {
            beyond
        } else {
            u64::MAX
        };
        *row |= random.number() & spare;
    }
}

/// Puts something into a field that often may not stand there.
pub fn change(random: &mut Random, case: &mut Case) {
    let e = random.below(case.events.clamp(1, EVENTS));
    match random.below(16) {
        0 => case.edition = odd_count(random, EDITION_2 as usize) as u64,
        1 => case.threads = odd_count(random, THREADS),
        2 => case.addresses = odd_count(random, ADDRESSES),
        3 => case.events = odd_count(random, EVENTS),
        4 => case.dependencies = odd_count(random, DEPENDENCIES),
        5 => case.name_length = odd_count(random, NAME_BYTES),
        6 => case.kind[e] = odd_byte(random, Case::LWSYNC.into()),
        7 => case.thread[e] = odd_byte(random, case.threads),
        8 => case.address[e] = odd_byte(random, case.addresses),
        9..=12 => change_dependency(random, case),
        13 | 14 => change_write_order(random, case),
        _ => {
            let i = random.below(case.name_length.clamp(1, NAME_BYTES));
            case.name[i] = random.pick(&[0, 31, 32, 126, 127, 255]);
        }
    }
}

/// Around the least and the most, or anything.
fn odd_count(random: &mut Random, most: usize) -> usize {
    match random.below(5) {
        0 => random.below(2),
        1 => most,
        2 => most + 1,
        3 => random.any_number() as usize,
        _ => random.below(most + 1),
    }
}

/// Around what labels there are, or anything.
fn odd_byte(random: &mut Random, labels: usize) -> u8 {
    match random.below(4) {
        0 => labels as u8,
        1 => labels.wrapping_add(1) as u8,
        2 => random.byte(),
        _ => random.below(labels.clamp(1, EVENTS)) as u8,
    }
}

/// A number of one dependency, a whole one of the case's events, or its turn.
fn change_dependency(random: &mut Random, case: &mut Case) {
    let count = case.dependencies.clamp(1, DEPENDENCIES);
    case.dependencies = count;
    let (d, other) = (random.below(count), random.below(count));
    let events = case.events.clamp(1, EVENTS);
    let ends = any_ends(random, case, events);
    let [class, from, to] = dependencies(case);
    match random.below(8) {
        0 => class[d] = odd_byte(random, Case::BY_CONTROL.into()),
        1 => from[d] = odd_byte(random, events),
        2 => to[d] = odd_byte(random, events),
        3..=5 => {
            class[d] = random.below(Case::BY_CONTROL as usize + 1) as u8;
            (from[d], to[d]) = ends;
        }
        6 => [class, from, to]
            .into_iter()
            .for_each(|array| array.swap(d, other)),
        _ => [class, from, to]
            .into_iter()
            .for_each(|array| array[d] = array[other]),
    }
}

/// Two events, half of the time a load and one that is listed later in its thread, if that is found.
fn any_ends(random: &mut Random, case: &Case, events: usize) -> (u8, u8) {
    let mut ends = (random.below(events), random.below(events));
    let after = |(a, b)| case.kind[a] == Case::LOAD && a < b && case.thread[a] == case.thread[b];
    let tries = random.pick(&[0, 50]);
    for _ in 0..tries {
        if !after(ends) {
            ends = (random.below(events), random.below(events));
        }
    }
    (ends.0 as u8, ends.1 as u8)
}

/// An entry that is listed twice, of another address, or no event's.
fn change_write_order(random: &mut Random, case: &mut Case) {
    let x = random.below(case.addresses.clamp(1, ADDRESSES));
    let listed = handed::writes(case, x).count();
    if listed == 0 {
        return;
    }
    let place = |i: usize| x * EVENTS + i;
    let (i, other) = (place(random.below(listed)), place(random.below(listed)));
    case.writes[i] = match random.below(3) {
        0 => case.writes[other],
        1 => random.below(case.events.clamp(1, EVENTS)) as u8,
        _ => odd_byte(random, case.events),
    };
}
