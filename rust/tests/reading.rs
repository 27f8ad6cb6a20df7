//! Reading: number, place, length and name agree on good, damaged and random bytes.

#[path = "../src/bin/record/built.rs"]
mod built;
mod common;
#[path = "reading/odd.rs"]
mod odd;

use common::plain;
use litmus::Part;
use ordinary::answer::{Refusal, ENDS, FORM, MISPLACED, OF_READING, RANGE, UNPRINTABLE};
use ordinary::generate::{self, damaged};
use ordinary::limits::{most_bytes, EDITIONS, EVENTS, FIRST, NAME, SECOND};
use ordinary::random::Random;
use ordinary::tally::{edition_name, stated_edition, Tally};
use ordinary::{read, write, Answer};

/// Reads with both, compares all that they give, and hands back the number.
fn compare(bytes: &[u8]) -> u32 {
    let (expected, name) = match read::read(bytes) {
        Ok(reading) => (Answer::done(reading.length), reading.case.name),
        Err(refusal) => (refusal.into(), Vec::new()),
    };
    assert_eq!(plain(litmus::read_raw(bytes)), expected, "{bytes:?}");
    assert_eq!(litmus::name(bytes), name, "the name in {bytes:?}");
    let part = litmus::name_raw(bytes);
    if expected.number != 0 {
        assert_eq!(part, Part { at: 0, length: 0 }, "{bytes:?}");
    } else if !name.is_empty() {
        assert_eq!(part.at + part.length, expected.length as u64, "{bytes:?}");
    }
    assert!(
        expected.length <= most_bytes(stated_edition(bytes)),
        "{bytes:?}"
    );
    expected.number
}

/// Two dozen records of each edition, of up to some hundred bytes. Those of the second have lwsyncs
/// and dependencies.
fn records() -> Vec<Vec<u8>> {
    let mut random = Random::new(10);
    let mut all = Vec::new();
    for edition in EDITIONS {
        let mut count = 0;
        while count < 24 {
            let case = generate::any_case(&mut random);
            let record = write::record(&case);
            let both = case.has_lwsync() && case.dependencies().len() > 1;
            let fit = edition == FIRST || both;
            if case.edition == edition && fit && (20..400).contains(&record.len()) {
                all.push(record);
                count += 1;
            }
        }
    }
    all
}

/// The records with an unprintable byte at the front of their names, where they have names.
fn with_bad_names(records: &[Vec<u8>]) -> Vec<Vec<u8>> {
    let mut all = Vec::new();
    for record in records {
        let name = read::name(record).len();
        if name > 0 {
            let mut record = record.clone();
            let start = record.len() - name;
            record[start] = 31;
            all.push(record);
        }
    }
    all
}

fn full_record(random: &mut Random, edition: u32) -> Vec<u8> {
    let mut case = generate::full(random, edition, EVENTS);
    case.name = b"full".to_vec();
    write::record(&case)
}

#[test]
fn every_truncation() {
    let mut random = Random::new(11);
    let good = records();
    let bad = with_bad_names(&good);
    let full = EDITIONS.map(|edition| full_record(&mut random, edition));
    for (all, whole) in [(good, 0), (full.to_vec(), 0), (bad, UNPRINTABLE)] {
        for record in all {
            assert_eq!(compare(&record), whole);
            for size in 0..record.len() {
                let number = compare(&record[..size]);
                assert_eq!(number, ENDS, "{record:?} cut to {size}");
            }
        }
    }
}

#[test]
fn every_byte_changed() {
    let mut tally = Tally::default();
    let mut all = records();
    all.extend(with_bad_names(&all));
    for mut record in all {
        let heading = edition_name(stated_edition(&record));
        for at in 0..record.len() {
            let old = record[at];
            for byte in 0..=u8::MAX {
                record[at] = byte;
                tally.add(heading, compare(&record));
                tally.add_unfit(&record);
            }
            record[at] = old;
        }
    }
    println!("{tally}");
    for edition in EDITIONS {
        tally.assert_each(edition_name(edition), OF_READING, 1_000);
    }
    tally.assert_unfit(20);
}

#[test]
fn every_byte_of_a_name() {
    for case in generate::every_byte_of_a_name() {
        assert_eq!(compare(&write::record(&case)), case.fault(), "{case:?}");
    }
}

/// A bad byte of the name comes behind all else that is wrong with a record, and of two bad bytes
/// the first counts.
#[test]
fn when_a_name_is_refused() {
    let fronts: [&[u8]; 2] = [
        &[1, 1, 1, 0, 2, 1, 0, 0, 1, 0, 0, 0, 1, 0, 1, 0, 1],
        &[2, 1, 1, 0, 2, 1, 0, 0, 1, 0, 0, 0, 1, 0, 0, 1, 0, 1],
    ];
    for front in fronts {
        let end = front.len();
        let too_long = [&[NAME as u8 + 1], &[0; NAME + 1][..]].concat();
        // The name's length and bytes, and how reading ends.
        let names: [(&[u8], u32, usize); 6] = [
            (&[4, 97, 31, 98, 127], UNPRINTABLE, end + 2),
            (&[2, 255, 10], UNPRINTABLE, end + 1),
            (&too_long, RANGE, end),
            (&[2, 0], ENDS, end + 1),
            (&[0x81, 0, 0], FORM, end),
            (&[0x81], ENDS, end),
        ];
        for (name, number, place) in names {
            refused(&[front, name].concat(), number, place);
        }
        // A number of the front exchanged for others, and that number's refusal.
        let others: [(usize, &[u8], u32); 4] = [
            (0, &[3], RANGE),
            (3, &[0x80, 0], FORM),
            (end - 4, &[1], MISPLACED),
            (end - 3, &[5], RANGE),
        ];
        for (at, with, number) in others {
            let changed = [&front[..at], with, &front[at + 1..], &[1, 0]].concat();
            refused(&changed, number, at);
        }
    }
}

fn refused(bytes: &[u8], number: u32, place: usize) {
    compare(bytes);
    let expected = Err(Refusal { number, place });
    assert_eq!(read::read(bytes), expected, "{bytes:?}");
}

/// Each record at other places, so that every place below the shortest one's length is changed in
/// some record.
#[test]
fn some_bytes_of_full_records_changed() {
    let mut random = Random::new(12);
    let records = 20;
    for i in 0..records {
        let mut record = full_record(&mut random, EDITIONS[i % EDITIONS.len()]);
        for at in (i..record.len()).step_by(records) {
            let old = record[at];
            for byte in [0, old.wrapping_add(1), old ^ 128, random.byte()] {
                record[at] = byte;
                compare(&record);
            }
            record[at] = old;
        }
    }
}

#[test]
fn damaged_and_random_bytes() {
    let mut random = Random::new(13);
    let mut tally = Tally::default();
    for _ in 0..50_000 {
        let case = generate::any_case(&mut random);
        let bytes = damaged(&mut random, &case);
        tally.add(edition_name(stated_edition(&bytes)), compare(&bytes));
        tally.add_unfit(&bytes);
        let size = random.below(30);
        compare(&random.bytes(size));
        let small: Vec<u8> = (0..size).map(|_| random.below(4) as u8).collect();
        compare(&small);
    }
    println!("{tally}");
    for edition in EDITIONS {
        tally.assert_each(edition_name(edition), OF_READING, 500);
    }
    tally.assert_unfit(100);
}

/// The greatest record of each edition can be read, and the limits name its length.
#[test]
fn greatest_records() {
    for (edition, length) in [(FIRST, 33_409), (SECOND, 33_697)] {
        let record = write::record(&generate::greatest(edition));
        assert_eq!(record.len(), length);
        assert_eq!(most_bytes(edition), length);
        assert_eq!(compare(&record), 0);
    }
}
