//! Logs: however they are cut, tally and ending are those of the ordinary implementation for the
//! whole log, and so is each call's answer.

#[path = "logs/both.rs"]
mod both;

use both::{call_by_call, compare, fed, plain, tally};
use litmus::{judge_log_raw, Log, Refusal, RECORD_BYTES};
use ordinary::answer::{ENDS, FORM, MISPLACED, OF_READING, RANGE, ROOM, UNPRINTABLE};
use ordinary::generate::{self, any_records, pieces, record_of, refused, short_records};
use ordinary::judge::RULES;
use ordinary::limits::{COUNT, EDITIONS, EVENTS, GROUPS, NAME};
use ordinary::log::{summary, Counts};
use ordinary::random::Random;
use ordinary::tally::Tally;
use ordinary::{read, write};

/// How a log may end before its bytes do.
const REFUSALS: [u32; 5] = [ENDS, FORM, RANGE, MISPLACED, UNPRINTABLE];

const ZEROS: Counts = Counts {
    records: 0,
    accepted: 0,
    broken: [0; litmus::RULES],
};

/// The headings of the events of records, and of the groups of their values.
const SIZE: &str = "events";
const WIDTH: &str = "groups of a value";

fn slices(records: &[Vec<u8>]) -> Vec<&[u8]> {
    records.iter().map(Vec::as_slice).collect()
}

/// Counts the events of records, and the width of their values.
fn add_sizes(times: &mut Tally, records: &[Vec<u8>]) {
    for record in records {
        let case = read::read(record).expect("a record").case;
        times.add(SIZE, case.events.len() as u32);
        for event in case.events {
            let groups = write::number(event.value.into()).len();
            times.add(WIDTH, groups as u32);
        }
    }
}

#[test]
fn long_logs() {
    let mut random = Random::new(100);
    let mut times = Tally::default();
    for _ in 0..10 {
        let records = any_records(&mut random, 1_000);
        let bytes = records.concat();
        let whole = summary(&bytes, ZEROS);
        assert_eq!((whole.length, whole.counts.records), (bytes.len(), 1_000));
        for last in [false, true] {
            let mut kept = tally(ZEROS);
            let answer = judge_log_raw(&bytes, 7, last, &mut kept);
            assert_eq!((answer.number, answer.ended), (0, last));
            assert_eq!((answer.length, answer.place), (bytes.len(), 0));
            assert_eq!(kept, tally(whole.counts));
        }
        let mut cuts = vec![vec![&bytes[..]], slices(&records)];
        for most in [300, 5_000, 65_536, bytes.len()] {
            cuts.push(pieces(&mut random, &bytes, most));
        }
        for cut in cuts {
            assert_eq!(fed(&cut, tally(ZEROS)), plain(whole));
        }
        times.add_log(&bytes);
        add_sizes(&mut times, &records);
    }
    println!("{times}");
    times.assert_logs(20);
    times.assert_each(SIZE, [0, 1, EVENTS as u32], 20);
    times.assert_each(WIDTH, 1..=GROUPS as u32, 100);
}

/// Every call on a log of so many short records, in pieces of at most so many bytes.
fn every_call(random: &mut Random, count: usize, most: usize, times: &mut Tally) {
    let bytes = short_records(random, count, 400).concat();
    let cut = pieces(random, &bytes, most);
    let mut kept = tally(ZEROS);
    let answer = call_by_call(&cut, random.any_number(), &mut kept);
    assert_eq!((answer.number, kept.records as usize), (0, count));
    assert_eq!(fed(&cut, tally(ZEROS)).tally, kept);
    times.add_log(&bytes);
}

#[test]
fn every_call_in_pieces() {
    let mut random = Random::new(101);
    let mut times = Tally::default();
    for _ in 0..60 {
        every_call(&mut random, 40, 600, &mut times);
    }
    println!("{times}");
    times.assert_logs(5);
}

#[test]
fn every_call_byte_by_byte() {
    let mut times = Tally::default();
    every_call(&mut Random::new(108), 1_000, 1, &mut times);
    println!("{times}");
    times.assert_logs(1);
}

/// Places are counted from where the log begins, past the greatest number too.
#[test]
fn every_truncation() {
    let mut random = Random::new(102);
    let mut times = Tally::default();
    for _ in 0..10 {
        let bytes = short_records(&mut random, 20, 200).concat();
        for size in 0..=bytes.len() {
            let cut = &bytes[..size];
            for from in [0, 1 << 32, u64::MAX - size as u64 / 2, u64::MAX] {
                for last in [false, true] {
                    let answer = compare(cut, from, last, &mut tally(ZEROS));
                    let way = if last { "last" } else { "not last" };
                    times.add(way, answer.number);
                    assert_eq!(answer.ended, last);
                    if answer.number == ENDS && answer.place < from {
                        times.add("past the greatest", ENDS);
                    }
                }
            }
            let whole = plain(summary(cut, ZEROS));
            assert_eq!(fed(&[cut], tally(ZEROS)), whole);
            let halves = cut.split_at(random.below(size + 1));
            assert_eq!(fed(&[halves.0, &[], halves.1], tally(ZEROS)), whole);
        }
    }
    println!("{times}");
    times.assert_each("last", [0, ENDS], 500);
    times.assert_each("not last", [0], 5_000);
    times.assert_each("past the greatest", [ENDS], 1_000);
}

/// Each refusal at the start of a log, behind records, and with bytes behind it that have no say.
/// The tally is that of the records before.
#[test]
fn each_refusal() {
    let mut random = Random::new(103);
    for number in REFUSALS {
        for i in 0..60 {
            let before = any_records(&mut random, i % 4).concat();
            let bad = refused(&mut random, number);
            let behind = match (number, i % 3) {
                (ENDS, _) | (_, 0) => Vec::new(),
                (_, 1) => any_records(&mut random, 3).concat(),
                _ => random.bytes(2 * RECORD_BYTES),
            };
            let place = read::read(&bad).expect_err("it is refused").place;
            let ending = Refusal {
                number,
                place: Some(before.len() + place),
            };
            let counts = summary(&before, ZEROS).counts;
            assert_eq!(counts.records as usize, i % 4);
            let bytes = [&before[..], &bad, &behind].concat();
            let (first, second) = bytes.split_at(before.len() + random.below(bad.len()));
            let mut cuts = vec![vec![first, second]];
            cuts.extend([1_000, 100_000].map(|most| pieces(&mut random, &bytes, most)));
            for cut in cuts {
                let found = fed(&cut, tally(ZEROS));
                assert_eq!(found.tally, tally(counts), "{bytes:?}");
                assert_eq!(found.refusal, Some(ending), "{bytes:?}");
                call_by_call(&cut, random.any_number(), &mut tally(ZEROS));
            }
        }
    }
}

/// Once a log has ended, further pieces change nothing.
#[test]
fn after_the_end() {
    let mut random = Random::new(104);
    for number in REFUSALS.into_iter().filter(|&number| number != ENDS) {
        for _ in 0..20 {
            let bytes = [record_of(&mut random, 0), refused(&mut random, number)].concat();
            let mut log = Log::new();
            log.feed(&bytes);
            assert!(log.has_ended());
            let ended = log.clone().finish();
            assert_eq!(ended, plain(summary(&bytes, ZEROS)));
            for _ in 0..3 {
                log.feed(&any_records(&mut random, 2).concat());
                assert!(log.has_ended() && log.tally().records == 1);
            }
            assert_eq!(log.finish(), ended);
        }
    }
}

/// Counts with one of them, by its place in the list, that has room for so many more.
fn nearly_full(random: &mut Random, which: usize, room: u32) -> Counts {
    let mut count = || random.of_any_width(1 << 30);
    let mut counts = Counts {
        records: count(),
        accepted: count(),
        broken: [0; litmus::RULES].map(|_| count()),
    };
    match which {
        0 => counts.records = COUNT - room,
        1 => counts.accepted = COUNT - room,
        _ => counts.broken[which - 2] = COUNT - room,
    }
    counts
}

/// Two records of each verdict on top of tallies with each count at its most or just below. A count
/// that would grow past it ends the log with 6: the tally has the records before, and no other.
#[test]
fn full_tallies() {
    let mut random = Random::new(105);
    let mut times = Tally::default();
    for (own, verdict) in (1..).zip([0].into_iter().chain(RULES)) {
        let records = [0; 2].map(|_| record_of(&mut random, verdict));
        let bytes = records.concat();
        for which in 0..ZEROS.list().len() {
            for room in 0..4 {
                let before = nearly_full(&mut random, which, room);
                let grows = which == 0 || which == own;
                let taken = if grows { 2.min(room as usize) } else { 2 };
                let mut expected = before.list();
                expected[0] += taken as u32;
                expected[own] += taken as u32;
                let number = if taken < 2 { ROOM } else { 0 };
                let mut kept = tally(before);
                let answer = compare(&bytes, 5, true, &mut kept);
                assert_eq!((answer.number, answer.place), (number, 0));
                assert_eq!(answer.length, records[..taken].concat().len());
                assert_eq!(summary(&bytes, before).counts.list(), expected);
                let found = fed(&slices(&records), tally(before));
                assert_eq!(found, plain(summary(&bytes, before)));
                let last = compare(&bytes, 5, false, &mut tally(before));
                assert_eq!((last.number, last.ended), (number, taken < 2));
                times.add("endings", number);
            }
        }
    }
    println!("{times}");
    times.assert_each("endings", [0, ROOM], 30);
}

/// Changes a few bytes.
fn damage(random: &mut Random, bytes: &mut [u8]) {
    for _ in 0..random.from_to(1, 3) {
        let at = random.below(bytes.len());
        bytes[at] = match random.below(3) {
            0 => random.byte(),
            1 => bytes[at].wrapping_add(1),
            _ => bytes[at] ^ 1 << random.below(8),
        };
    }
}

/// Logs with a few bytes changed, at times also cut short, in any pieces.
#[test]
fn damaged_logs() {
    let mut random = Random::new(106);
    let mut times = Tally::default();
    for _ in 0..20_000 {
        let mut bytes = any_records(&mut random, 4).concat();
        damage(&mut random, &mut bytes);
        if random.once_in(4) {
            bytes.truncate(random.below(bytes.len()));
        }
        let whole = summary(&bytes, ZEROS);
        let most = random.pick(&[2_000, 100_000]);
        let cut = pieces(&mut random, &bytes, most);
        assert_eq!(fed(&cut, tally(ZEROS)), plain(whole), "{bytes:?}");
        let mut kept = tally(ZEROS);
        let answer = judge_log_raw(&bytes, 0, true, &mut kept);
        assert_eq!((answer.length, kept), (whole.length, tally(whole.counts)));
        times.add("endings", answer.number);
    }
    println!("{times}");
    times.assert_each("endings", OF_READING, 100);
}

/// As many bytes as a record may take hold a whole one, or the log has ended: what has to come
/// again is always less.
#[test]
fn what_has_to_come_again() {
    let mut random = Random::new(107);
    let mut times = Tally::default();
    let greatest = EDITIONS.map(|edition| write::record(&generate::greatest(edition)));
    for i in 0..2_000 {
        let mut bytes = greatest[i % EDITIONS.len()].repeat(2);
        if i >= EDITIONS.len() {
            let from = random.pick(&[0, RECORD_BYTES - NAME]);
            damage(&mut random, &mut bytes[from..RECORD_BYTES]);
        }
        let answer = compare(&bytes[..RECORD_BYTES], 0, false, &mut tally(ZEROS));
        assert!(answer.ended || answer.length > 0);
        times.add("ended", answer.number);
        let short = compare(&bytes[..RECORD_BYTES - 1], 0, false, &mut tally(ZEROS));
        if !short.ended && short.length == 0 {
            times.add("a byte less", u32::from(answer.ended));
        }
    }
    println!("{times}");
    times.assert_each(
        "ended",
        OF_READING.into_iter().filter(|&number| number != ENDS),
        5,
    );
    times.assert_each("a byte less", [0, 1], 5);
}
