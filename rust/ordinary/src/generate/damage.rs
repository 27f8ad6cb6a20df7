//! Bytes that are no records.

use super::names::unprintable_name;
use crate::case::{Case, Class, Dependency, Unfit};
use crate::limits::{GROUPS, SECOND, VALUE};
use crate::random::Random;
use crate::write;

/// Bytes that most likely are no record, made from the case's. Some have an unprintable name, alone
/// or beside another fault.
pub fn damaged(random: &mut Random, case: &Case) -> Vec<u8> {
    if !random.once_in(3) {
        return broken(random, case);
    }
    let name = unprintable_name(random, &case.name);
    let case = Case {
        name,
        ..case.clone()
    };
    match random.once_in(2) {
        true => write::record(&case),
        false => broken(random, &case),
    }
}

/// The case's record with another fault, most likely.
fn broken(random: &mut Random, case: &Case) -> Vec<u8> {
    let mut record = write::record(case);
    let at = random.below(record.len());
    match random.below(9) {
        way @ ..BYTE_CHANGES => change_byte(random, &mut record, at, way),
        5 => {
            let count = random.below(40);
            record = random.bytes(count);
        }
        6 => record = with_odd_number(random, case),
        _ => record = with_unfit_dependency(random, case),
    }
    record
}

/// The ways in which [`change_byte`] changes bytes.
pub(super) const BYTE_CHANGES: usize = 5;

/// Cuts the bytes, or exchanges, raises, takes out or puts in one.
pub(super) fn change_byte(random: &mut Random, bytes: &mut Vec<u8>, at: usize, way: usize) {
    match way {
        0 => bytes.truncate(at),
        1 => bytes[at] = random.byte(),
        2 => bytes[at] = bytes[at].wrapping_add(1),
        3 => {
            bytes.remove(at);
        }
        _ => bytes.insert(at, random.byte()),
    }
}

/// The record in the second edition with a dependency more that may not stand there. If none is
/// found, it stays readable.
fn with_unfit_dependency(random: &mut Random, case: &Case) -> Vec<u8> {
    let mut case = case.clone();
    case.edition = SECOND;
    let why = random.pick(&Unfit::ALL);
    let count = case.events.len();
    for _ in 0..20 * count {
        let class = random.pick(&Class::ALL);
        let (from, to) = (random.below(count), random.below(count));
        let dependency = Dependency { from, to, class };
        let at = random.below(case.dependencies.len() + 1);
        let last = case.dependencies[..at].last().copied();
        if case.unfit(dependency, last) == Some(why) {
            case.dependencies.insert(at, dependency);
            break;
        }
    }
    write::record(&case)
}

/// The record with one number exchanged for odd bytes, and perhaps cut behind it.
fn with_odd_number(random: &mut Random, case: &Case) -> Vec<u8> {
    let numbers = write::numbers(case);
    let odd = random.below(numbers.len());
    let (mut record, cut) = one_odd_number(random, &numbers, odd);
    if !cut {
        record.extend(&case.name);
    }
    record
}

/// The bytes of the numbers, one of which is exchanged for odd bytes; and whether they are cut behind
/// it.
pub(super) fn one_odd_number(random: &mut Random, numbers: &[u32], odd: usize) -> (Vec<u8>, bool) {
    let mut bytes = Vec::new();
    for (i, &value) in numbers.iter().enumerate() {
        if i == odd {
            bytes.extend(odd_number(random, value));
            if random.once_in(4) {
                return (bytes, true);
            }
        } else {
            bytes.extend(write::number(value.into()));
        }
    }
    (bytes, false)
}

/// A number that is too long, too great, unfinished or not in its shortest form.
fn odd_number(random: &mut Random, value: u32) -> Vec<u8> {
    let mut bytes = write::number(value.into());
    let more = |byte: &mut u8| *byte |= 128;
    match random.below(6) {
        0 => {
            bytes.iter_mut().for_each(more);
            bytes.push(0);
        }
        1 => {
            bytes.iter_mut().for_each(more);
            bytes.resize(GROUPS, 128);
            bytes.push(random.byte());
        }
        2 => bytes.iter_mut().for_each(more),
        3 => bytes = write::number(u64::from(VALUE) + random.below(3) as u64),
        4 => bytes = write::number(u64::from(value) + (1 << 32)),
        _ => bytes = write::number(random.of_any_width(VALUE).into()),
    }
    bytes
}
