//! Numbers of every width: each number of some records of both editions in turn, through the calls
//! on records, logs and areas, and values up to the greatest.

mod common;

use common::plain;
use litmus::Tally;
use ordinary::answer::{Refusal, ENDS, FORM, RANGE};
use ordinary::area::{BLANK, FINISHED};
use ordinary::case::{Event, Order};
use ordinary::judge::{judge, PPCS, PPCW};
use ordinary::limits::{ADDRESSES, EDITIONS, GROUPS, SECOND, VALUE};
use ordinary::random::Random;
use ordinary::{generate, read, write, Answer, Case};

const FOLLOWED: u8 = 128;

/// A number of a record, and what stands before and behind it.
struct Split {
    front: Vec<u8>,
    value: u32,
    back: Vec<u8>,
}

impl Split {
    /// The record with other bytes in place of the number.
    fn with(&self, bytes: &[u8]) -> Vec<u8> {
        [&self.front[..], bytes, &self.back].concat()
    }

    /// The bytes in place of the number are refused, whether others stand behind them or not.
    fn refused(&self, bytes: &[u8], number: u32) {
        refused(&self.with(bytes), number, self.front.len());
        refused(&self.ending(bytes), number, self.front.len());
    }

    fn ending(&self, bytes: &[u8]) -> Vec<u8> {
        [&self.front[..], bytes].concat()
    }
}

/// Each number of the case's record.
fn splits(case: &Case) -> Vec<Split> {
    let record = write::record(case);
    let mut front = Vec::new();
    let split = |value: u32| {
        let bytes = write::number(value.into());
        let before = front.clone();
        front.extend(bytes);
        Split {
            back: record[front.len()..].to_vec(),
            value,
            front: before,
        }
    };
    write::numbers(case).into_iter().map(split).collect()
}

/// By the calls on records, with a buffer that is left alone, on logs and on areas.
fn refused(bytes: &[u8], number: u32, place: usize) {
    let expected = Answer::from(Refusal { number, place });
    assert_eq!(read::answer(bytes), expected, "{bytes:?}");
    assert_eq!(plain(litmus::read_raw(bytes)), expected, "{bytes:?}");
    for model in [PPCW, PPCS] {
        let judged = plain(litmus::judge_raw(bytes, model));
        assert_eq!(judged, expected, "{bytes:?}");
        let asked = litmus::condition_raw(bytes, model, b"");
        let found = (asked.number, asked.place as usize);
        assert_eq!(found, (number, place), "{bytes:?}");
    }
    let mut out = [0xEE; 64];
    let renumbered = litmus::renumber_raw(bytes, 0, 0, &mut out, 0);
    let represented = litmus::representative_raw(bytes, &mut out, 0);
    for answer in [renumbered, represented] {
        assert_eq!(plain(answer), expected, "{bytes:?}");
    }
    assert_eq!(out, [0xEE; 64], "{bytes:?}");
    assert!(litmus::name(bytes).is_empty(), "{bytes:?}");
    assert_eq!(litmus::compared_raw(bytes, bytes).which, 0, "{bytes:?}");
    refused_in_log(bytes, expected);
    refused_in_areas(bytes, expected);
}

/// The log ends there, and nothing is counted. A log without bytes is none that is refused.
fn refused_in_log(bytes: &[u8], expected: Answer) {
    let mut tally = Tally::default();
    let log = litmus::judge_log_raw(bytes, 0, true, &mut tally);
    let fault = match bytes {
        [] => (0, 0),
        _ => (expected.number, expected.place as u64),
    };
    assert_eq!((log.number, log.place), fault, "{bytes:?}");
    assert_eq!(tally, Tally::default(), "{bytes:?}");
}

/// As a new record, with its place in it; and in a finished frame, where it is the log's.
fn refused_in_areas(bytes: &[u8], expected: Answer) {
    let mut area = [BLANK; 64];
    let answer = litmus::area_append_raw(&mut area, bytes, u64::MAX);
    assert_eq!(plain(answer), expected, "{bytes:?}");
    assert_eq!(area, [BLANK; 64], "{bytes:?}");
    let frame = litmus::area_next_raw(&[&[FINISHED], bytes].concat(), 0);
    let place = 1 + expected.place as u64;
    assert_eq!((frame.number, frame.place), (expected.number, place));
}

/// Small cases of both editions that have every field.
fn cases() -> Vec<Case> {
    let mut random = Random::new(60);
    let mut all = Vec::new();
    for edition in EDITIONS {
        let mut found = 0;
        while found < 8 {
            let case = generate::tiny(&mut random);
            let stores = case.write_orders.iter().any(|listed| !listed.is_empty());
            let pairs = case
                .orders
                .iter()
                .any(|o| !o.pairs(case.events.len()).is_empty());
            let depends = edition != SECOND || !case.dependencies().is_empty();
            if case.edition == edition && stores && pairs && depends {
                all.push(case);
                found += 1;
            }
        }
    }
    all
}

/// Numbers that no field takes, the ones that are another modulo 2 to the 32 among them.
#[test]
fn too_great() {
    let wrap = u64::from(u32::MAX) + 1;
    let most = 128u64.pow(GROUPS as u32) - 1;
    for split in cases().iter().flat_map(splits) {
        let value = u64::from(split.value);
        for number in [u64::from(VALUE) + 1, wrap + value, 7 * wrap + value, most] {
            let bytes = write::number(number);
            assert_eq!(bytes.len(), GROUPS);
            split.refused(&bytes, RANGE);
        }
    }
}

/// Any number with groups of 0 behind it, up to the most groups.
#[test]
fn last_group_zero() {
    for split in cases().iter().flat_map(splits) {
        let shortest = write::number(split.value.into());
        for groups in shortest.len() + 1..=GROUPS {
            let mut bytes: Vec<u8> = shortest.iter().map(|byte| byte | FOLLOWED).collect();
            bytes.resize(groups - 1, FOLLOWED);
            bytes.push(0);
            split.refused(&bytes, FORM);
        }
    }
}

/// A group more than there may be, or the bytes end before that: at any number of groups.
#[test]
fn more_follows() {
    for split in cases().iter().flat_map(splits) {
        for low in [0, 127] {
            let groups = [FOLLOWED | low; GROUPS];
            split.refused(&groups, FORM);
            for next in [0, 1, 127, 128, 255] {
                split.refused(&[&groups[..], &[next]].concat(), FORM);
            }
            for count in 0..GROUPS {
                let bytes = split.ending(&groups[..count]);
                refused(&bytes, ENDS, split.front.len());
            }
        }
    }
}

/// The least and the greatest numbers of each width.
fn every_width() -> Vec<u32> {
    let ends = |groups: u32| [128u64.pow(groups), 128u64.pow(groups + 1) - 1];
    let all = (0..GROUPS as u32).flat_map(ends);
    let mut all: Vec<u32> = all.map(|v| v.min(VALUE.into()) as u32).collect();
    all.extend([0, 65_535, 65_536, 1 << 31, VALUE - 1]);
    all
}

/// In every field: a value of that width is read, and other fields refuse what is not in their
/// range.
#[test]
fn every_width_in_every_field() {
    for split in cases().iter().flat_map(splits) {
        for value in every_width() {
            let bytes = split.with(&write::number(value.into()));
            for model in [PPCW, PPCS] {
                let answer = plain(litmus::judge_raw(&bytes, model));
                assert_eq!(answer, judge(&bytes, model), "{bytes:?}");
            }
        }
    }
}

/// What the record answers, and what its bytes are when renumbered.
fn judged(case: &Case, number: u32, finals: [u32; ADDRESSES]) {
    let record = write::record(case);
    let expected = Answer {
        number,
        place: 0,
        length: record.len(),
        finals,
    };
    for model in [PPCW, PPCS] {
        let answer = plain(litmus::judge_raw(&record, model));
        assert_eq!(answer, expected, "{case:?}");
    }
    let mut out = vec![0; record.len()];
    let answer = litmus::renumber_raw(&record, 0, 0, &mut out, 0);
    assert_eq!(plain(answer), Answer::done(record.len()));
    assert_eq!(out, record, "{case:?}");
}

/// A store and a load of each value are accepted and leave it; a load of another one is not
/// accepted, also where a single bit differs. So with an initial value.
#[test]
fn values_differ_in_any_bit() {
    for edition in EDITIONS {
        for value in every_width() {
            let bits = (0..u32::BITS).map(|bit| value ^ (1 << bit));
            for other in bits.chain([value]) {
                let rule = |rule| if other == value { 0 } else { rule };
                let finals = |v| if other == value { [v, 0, 0, 0] } else { [0; 4] };
                judged(&stored(edition, value, other), rule(16), finals(value));
                judged(&initial(edition, value, other), rule(15), finals(value));
            }
        }
    }
}

/// One thread stores a value and then loads one.
fn stored(edition: u32, value: u32, loaded: u32) -> Case {
    let mut case = initial(edition, 0, loaded);
    case.events.insert(0, Event::store(0, 0, value));
    case.write_orders[0] = vec![0];
    case.orders[0] = Order::total(&[0, 1]);
    case
}

/// A load of a value with that initial one.
fn initial(edition: u32, value: u32, loaded: u32) -> Case {
    let mut case = Case::empty(1, 1);
    case.edition = edition;
    case.initial = vec![value];
    case.events = vec![Event::load(0, 0, loaded)];
    case
}
