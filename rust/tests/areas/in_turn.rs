//! Appends with several faults at once: which of them is the answer.

use crate::both::{compare, Call};
use crate::made::{frame, frames};
use crate::{OF_LOGS, OF_RECORDS};
use ordinary::answer::{ENDS, FLAG, ROOM, UNREPAIRED};
use ordinary::area::BLANK;
use ordinary::generate::{refused, short_records};
use ordinary::random::Random;
use ordinary::read::read;

/// Some bytes that are refused with that number, and where.
fn refused_at(random: &mut Random, number: u32) -> (Vec<u8>, usize) {
    let bytes = refused(random, number);
    let place = read(&bytes).expect_err("it is refused").place;
    (bytes, place)
}

/// A log with that fault, or none for 0, and where it lies. Behind one of 1 nothing may follow.
fn log_with(random: &mut Random, fault: u32) -> (Vec<u8>, usize) {
    let log = frames(random, 2);
    let at = log.len();
    let (bad, place) = match fault {
        0 => (Vec::new(), 0),
        FLAG => (vec![random.from_to(1, 254) as u8], at),
        _ => {
            let (bytes, place) = refused_at(random, fault);
            (frame(&bytes), at + 1 + place)
        }
    };
    ([log, bad].concat(), place)
}

/// A record, or some bytes with that fault, and where it lies.
fn record_with(random: &mut Random, fault: u32) -> (Vec<u8>, usize) {
    match fault {
        0 => (short_records(random, 1, 60).concat(), 0),
        _ => refused_at(random, fault),
    }
}

/// The bytes behind a log: too few for a record's frame or not, and one of them not `FF` or all.
fn behind(random: &mut Random, record: &[u8], short: bool, unrepaired: bool) -> Vec<u8> {
    let size = match short {
        true => record.len().max(2),
        false => record.len() + 2,
    };
    let mut bytes = vec![BLANK; size];
    if unrepaired {
        let at = random.from_to(1, size - 1);
        bytes[at] = random.from_to(0, 254) as u8;
    }
    bytes
}

/// An append with a log's fault and a record's, or 0 for none, and with and without the others.
fn append(random: &mut Random, of_log: u32, of_record: u32, short: bool, unrepaired: bool) {
    let (mut area, log_place) = log_with(random, of_log);
    let (record, record_place) = record_with(random, of_record);
    if of_log != ENDS {
        area.extend(behind(random, &record, short, unrepaired));
    }
    let expected = match (of_log, of_record, short, unrepaired) {
        (0, 0, false, false) => (0, 0, record.len() + 1),
        (0, 0, false, true) => (UNREPAIRED, 0, 0),
        (0, 0, true, _) => (ROOM, 0, 0),
        (0, number, ..) => (number, record_place, 0),
        (number, ..) => (number, log_place, 0),
    };
    let answer = compare(&mut area, Call::Append(&record), u64::MAX);
    assert_eq!((answer.number, answer.place, answer.length), expected);
}

/// The log's fault comes first, then the record's, 6 and 8: every choice of them.
#[test]
fn which_comes_first() {
    let mut random = Random::new(127);
    for of_log in OF_LOGS.into_iter().chain([0]) {
        for of_record in OF_RECORDS.into_iter().chain([0]) {
            for i in 0..40 {
                let (short, unrepaired) = (i % 2 == 1, i / 2 % 2 == 1);
                append(&mut random, of_log, of_record, short, unrepaired);
            }
        }
    }
}
