//! The representative of a class, which are a record and all its renumberings: the least of them by
//! the library, by the other implementation and of all that the library's own renumbering gives.
//! And which of two records is the lesser.

mod common;
#[path = "representative/near.rs"]
mod near;
#[path = "representative/two.rs"]
mod two;

use common::plain;
use near::{near, NEAR, NEAR_COUNTS};
use ordinary::answer::{OF_READING, ROOM};
use ordinary::generate::{self, any_buffer, damaged, relabelled};
use ordinary::judge::{PPCS, PPCW};
use ordinary::limits::{EDITIONS, EVENTS};
use ordinary::permutation::COUNT;
use ordinary::random::Random;
use ordinary::representative::{least, representative};
use ordinary::tally::{edition_name, stated_edition, Tally};
use ordinary::{read, rows, write, Answer, Case};

/// Every byte of a buffer that a call has no say over.
const UNTOUCHED: u8 = 0xa5;

/// The least of all that renumbering the record gives, and by how many pairs of permutations.
fn least_renumbering(record: &[u8], length: usize) -> (Vec<u8>, usize) {
    let mut least = (vec![u8::MAX; length], 0);
    let mut out = vec![0; length];
    for q in 0..COUNT {
        for r in 0..COUNT {
            if litmus::renumber(record, q, r, &mut out, 0) != Ok(length) {
                continue;
            }
            if out < least.0 {
                least = (out.clone(), 0);
            }
            least.1 += usize::from(out == least.0);
        }
    }
    least
}

/// How many pairs of permutations change nothing of a case with so many labels.
fn idle(case: &Case) -> usize {
    let spare = |labels: usize| (1..=4 - labels).product::<usize>();
    spare(case.threads()) * spare(case.addresses())
}

/// What the classes of the records so far were like.
#[derive(Default)]
struct Classes {
    answers: Tally,
    /// 1: the representative is another record; by edition.
    moved: Tally,
    /// 1: more than one renumbering is the least; by edition.
    ties: Tally,
    /// 1: the case has labels that nothing or little tells apart, as `NEAR` says.
    near: Tally,
}

impl Classes {
    /// Takes the representative with both, compares answers and whole buffers, and hands back the
    /// number.
    fn compare(&mut self, record: &[u8], buffer: &[u8], at: u64) -> u32 {
        let (mut out, mut expected) = (buffer.to_vec(), buffer.to_vec());
        let answer = representative(record, &mut expected, at as usize);
        let found = plain(litmus::representative_raw(record, &mut out, at));
        let same = (found, &out) == (answer, &expected);
        assert!(same, "{record:?} from {at}: {found:?}, {out:?}");
        assert!(answer.number == 0 || out == buffer, "{record:?}");
        let heading = edition_name(stated_edition(record));
        self.answers.add(heading, answer.number);
        if answer.number == 0 {
            self.count(record, &out[at as usize..][..answer.length]);
        }
        answer.number
    }

    /// Holds the representative of a readable record to all renumberings of it.
    fn count(&mut self, record: &[u8], least: &[u8]) {
        let (by_renumbering, times) = least_renumbering(record, least.len());
        assert_eq!(least, by_renumbering, "{record:?}");
        again(least);
        let case = read::read(record).expect("readable").case;
        judged(record, least, case.addresses());
        let heading = edition_name(case.edition);
        let record = &record[..least.len()];
        self.moved.add(heading, u32::from(record != least));
        self.ties.add(heading, u32::from(times > idle(&case)));
        for (heading, there) in near(&case) {
            self.near.add(heading, u32::from(there));
        }
    }

    fn assert_each(&self, times: usize) {
        println!("{}", self.answers);
        println!("1: the representative is another record:\n{}", self.moved);
        println!("1: several renumberings are it:\n{}", self.ties);
        println!("1: the case has them:\n{}", self.near);
        for edition in EDITIONS {
            self.moved.assert_each(edition_name(edition), [0, 1], times);
            self.ties.assert_each(edition_name(edition), [0, 1], times);
        }
        for heading in NEAR {
            self.near.assert_each(heading, [0, 1], times);
        }
    }
}

/// Taking it twice changes nothing.
fn again(least: &[u8]) {
    let twice = litmus::representative(least);
    assert_eq!(twice.as_deref(), Ok(least));
}

/// Every verdict stays the same, and final values move with their addresses.
fn judged(record: &[u8], least: &[u8], addresses: usize) {
    for model in [PPCW, PPCS] {
        let mut answers = [record, least].map(|bytes| litmus::judge_raw(bytes, model));
        for answer in &mut answers {
            answer.finals[..addresses].sort();
        }
        assert_eq!(answers[0], answers[1], "{record:?} under {model}");
    }
}

/// Records as they come, with labels that are hard to tell apart, and damaged ones; into any buffer.
#[test]
fn any_bytes() {
    let mut random = Random::new(80);
    let mut classes = Classes::default();
    for i in 0..6_000 {
        let record = match i % 3 {
            0 => generate::any_record(&mut random),
            1 => {
                let case = generate::tied(&mut random);
                damaged(&mut random, &case)
            }
            _ => {
                let behind = random.below(6);
                let record = write::record(&generate::tied(&mut random));
                [record, random.bytes(behind)].concat()
            }
        };
        let (buffer, at) = any_buffer(&mut random, record.len());
        classes.compare(&record, &buffer, at);
    }
    for edition in EDITIONS {
        let heading = edition_name(edition);
        classes.answers.assert_each(heading, OF_READING, 40);
        classes.answers.assert_each(heading, [ROOM], 40);
    }
    classes.assert_each(40);
}

/// Of the most events: every thread with events, and all events on one thread, the other orders
/// alike up to their last bytes or of any numbers of pairs.
#[test]
fn many_events() {
    let mut random = Random::new(81);
    let mut classes = Classes::default();
    for i in 0..8 {
        for edition in EDITIONS {
            let full = generate::full(&mut random, edition, EVENTS);
            let cases = [
                relabelled(&mut random, &full),
                generate::last_rows_apart(&mut random, edition, EVENTS),
                generate::counts_apart(&mut random, edition, EVENTS),
                generate::greatest(edition),
            ];
            for case in cases {
                let record = write::record(&case);
                let least = litmus::representative(&record).expect("readable");
                let mut quick = vec![UNTOUCHED; record.len()];
                let answer = rows::representative(&record, &mut quick, 0);
                assert_eq!(answer, Answer::done(record.len()));
                assert!(least == quick, "{record:?}");
                // The plain implementation takes long.
                match i {
                    0 => assert_eq!(classes.compare(&record, &quick, 0), 0),
                    _ => classes.count(&record, &least),
                }
            }
        }
    }
    println!("{EVENTS} events, 1: the representative is another record:");
    println!("{}{}", classes.moved, classes.near);
    for edition in EDITIONS {
        classes.moved.assert_each(edition_name(edition), [0, 1], 5);
    }
    classes.near.assert_each(NEAR_COUNTS, [0, 1], 3);
}

/// Every room from none to more than enough, and every place up to past its end; and the greatest
/// places.
#[test]
fn rooms_and_places() {
    let mut random = Random::new(82);
    let mut tally = Tally::default();
    for edition in EDITIONS {
        let mut records = 0;
        while records < 8 {
            let case = generate::tied(&mut random);
            let [record, least] = [&case, &least(&case)].map(write::record);
            if case.edition == edition && (20..60).contains(&record.len()) && least != record {
                rooms(&mut tally, &record, &least);
                records += 1;
            }
        }
    }
    println!("rooms and places:\n{tally}");
    for edition in EDITIONS {
        tally.assert_each(edition_name(edition), [0, ROOM], 80);
    }
}

fn rooms(tally: &mut Tally, record: &[u8], least: &[u8]) {
    let length = record.len();
    for room in 0..length + 4 {
        let places = (0..=room as u64 + 1).chain([1 << 32, u64::MAX - length as u64, u64::MAX]);
        for at in places {
            let (mut out, mut expected) = (vec![UNTOUCHED; room], vec![UNTOUCHED; room]);
            let answer = write::place(least, &mut expected, at as usize);
            let found = plain(litmus::representative_raw(record, &mut out, at));
            let same = (found, &out) == (answer, &expected);
            assert!(same, "{record:?}, {room} from {at}: {found:?}, {out:?}");
            tally.add(edition_name(stated_edition(record)), answer.number);
        }
    }
}
