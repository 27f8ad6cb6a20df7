//! Renumbering: lists of calls through the library, beside two composed permutations.

mod common;

use common::plain;
use ordinary::answer::{ENDS, MODEL, OF_READING, PERMUTATION, ROOM, UNPRINTABLE};
use ordinary::generate::{self, any_buffer, any_permutation};
use ordinary::judge::{judge, RULES};
use ordinary::limits::{ADDRESSES, EDITIONS, LABELS, SECOND};
use ordinary::permutation::{composite, fits, images, inverse, COUNT};
use ordinary::random::Random;
use ordinary::renumber::{moved, relabel, renumber};
use ordinary::tally::{edition_name, stated_edition, Tally};
use ordinary::{read, write, Answer, Case};

const LISTS: usize = 20_000;
const MOST_CALLS: usize = 12;

/// What is known without looking at any record: the starting record's counts and length, and the
/// composites of all accepted renumberings.
struct Composed {
    threads: usize,
    addresses: usize,
    length: usize,
    by_threads: u64,
    by_addresses: u64,
}

impl Composed {
    fn new(case: &Case) -> Composed {
        Composed {
            threads: case.threads(),
            addresses: case.addresses(),
            length: write::size(case),
            by_threads: 0,
            by_addresses: 0,
        }
    }

    /// What a renumbering must answer; an accepted one is taken in.
    fn renumber(&mut self, q: u64, r: u64, room: usize, at: u64) -> Answer {
        if !fits(q, self.threads) || !fits(r, self.addresses) {
            return Answer::refused(PERMUTATION);
        }
        if at > room as u64 || room as u64 - at < self.length as u64 {
            return Answer::refused(ROOM);
        }
        self.by_threads = composite(self.by_threads, q);
        self.by_addresses = composite(self.by_addresses, r);
        Answer::done(self.length)
    }

    fn moved_finals(&self, finals: [u32; ADDRESSES]) -> [u32; ADDRESSES] {
        let moved = moved(&finals, images(self.by_addresses));
        moved.try_into().expect("one for each address")
    }
}

/// A list of calls under way.
struct List {
    case: Case,
    start: Vec<u8>,
    composed: Composed,
    record: Vec<u8>,
}

impl List {
    fn new(random: &mut Random) -> List {
        let case = generate::any_case(random);
        let start = write::record(&case);
        List {
            composed: Composed::new(&case),
            record: start.clone(),
            case,
            start,
        }
    }

    /// What the rule makes of the starting record.
    fn by_the_rule(&self) -> Vec<u8> {
        let Composed {
            by_threads,
            by_addresses,
            ..
        } = self.composed;
        write::record(&relabel(&self.case, by_threads, by_addresses))
    }

    /// The record with any bytes behind it.
    fn handed(&self, random: &mut Random) -> Vec<u8> {
        let behind = random.below(9);
        [self.record.clone(), random.bytes(behind)].concat()
    }

    fn judge(&mut self, random: &mut Random) -> u32 {
        let model = if random.once_in(4) {
            random.any_number()
        } else {
            random.below(2) as u64
        };
        let mut expected = judge(&self.start, model);
        expected.finals = self.composed.moved_finals(expected.finals);
        let handed = self.handed(random);
        let answer = plain(litmus::judge_raw(&handed, model));
        assert_eq!(answer, expected, "{handed:?} under {model}");
        answer.number
    }

    fn renumber(&mut self, random: &mut Random) -> u32 {
        let q = any_permutation(random, self.case.threads());
        let r = any_permutation(random, self.case.addresses());
        let (buffer, at) = any_buffer(random, self.start.len());
        let expected = self.composed.renumber(q, r, buffer.len(), at);
        let mut content = buffer.clone();
        if expected.number == 0 {
            let at = at as usize;
            content[at..at + self.start.len()].copy_from_slice(&self.by_the_rule());
        }
        let handed = self.handed(random);
        let mut out = buffer;
        let answer = plain(litmus::renumber_raw(&handed, q, r, &mut out, at));
        let call = format!("{handed:?} by {q} and {r} from {at}");
        assert_eq!(answer, expected, "{call}");
        assert_eq!(out, content, "{call}");
        if answer.number == 0 {
            self.record = out[at as usize..][..answer.length].to_vec();
        }
        answer.number
    }
}

#[test]
fn lists_of_calls() {
    let mut random = Random::new(30);
    let mut tally = Tally::default();
    let mut moved = Tally::default();
    for _ in 0..LISTS {
        let mut list = List::new(&mut random);
        let [judging, renumbering] = headings(list.case.edition);
        for _ in 0..random.below(MOST_CALLS + 1) {
            match random.once_in(2) {
                true => tally.add(judging, list.judge(&mut random)),
                false => tally.add(renumbering, list.renumber(&mut random)),
            }
        }
        assert_eq!(list.record, list.by_the_rule());
        if list.record != list.start {
            let both = list.case.has_lwsync() && !list.case.dependencies().is_empty();
            moved.add(edition_name(list.case.edition), u32::from(both));
        }
    }
    println!("{LISTS} lists of calls:\n{tally}");
    for edition in EDITIONS {
        let [judging, renumbering] = headings(edition);
        tally.assert_each(renumbering, [0, PERMUTATION, ROOM], 1_000);
        tally.assert_each(judging, [0, MODEL], 1_000);
        tally.assert_each(judging, RULES, 50);
    }
    println!("lists that change the record; 1: it has an lwsync and a dependency:\n{moved}");
    moved.assert_each(edition_name(SECOND), [0, 1], 500);
}

fn headings(edition: u32) -> [&'static str; 2] {
    match edition {
        SECOND => ["judging edition 2", "renumbering edition 2"],
        _ => ["judging edition 1", "renumbering edition 1"],
    }
}

/// Renumbers with both, compares answers, whole buffers and names, and hands back the number.
fn compare(record: &[u8], q: u64, r: u64, buffer: &[u8], at: u64) -> u32 {
    let (mut out, mut expected) = (buffer.to_vec(), buffer.to_vec());
    let answer = renumber(record, q, r, &mut expected, at as usize);
    let found = plain(litmus::renumber_raw(record, q, r, &mut out, at));
    let same = (found, &out) == (answer, &expected);
    assert!(same, "{record:?} by {q} and {r} from {at}: {found:?}");
    assert!(answer.number == 0 || out == buffer, "{record:?}");
    compare_names(record, q, r, buffer.len(), at, answer.number == 0);
    answer.number
}

/// The name beside a renumbering is the record's where that is done.
fn compare_names(record: &[u8], q: u64, r: u64, room: usize, at: u64, done: bool) {
    let named = if done { record } else { &[] };
    let name = litmus::renumbered_name(record, q, r, room, at as usize);
    assert_eq!(name, read::name(named), "{record:?} by {q} and {r}");
    let part = litmus::renumbered_name_raw(record, q, r, room, at);
    let part = (part.at as usize, part.length as usize);
    assert_eq!(part, read::name_part(named), "{record:?} by {q} and {r}");
}

/// Records as they come, damaged ones too.
#[test]
fn any_bytes() {
    let mut random = Random::new(31);
    let (mut tally, mut behind) = (Tally::default(), Tally::default());
    for _ in 0..40_000 {
        let record = generate::any_record(&mut random);
        let heading = edition_name(stated_edition(&record));
        let printable = generate::printable(&record);
        let [n, m] = read::read(&printable).map_or([1, 1], |reading| {
            [reading.case.threads(), reading.case.addresses()]
        });
        let q = any_permutation(&mut random, n);
        let r = any_permutation(&mut random, m);
        let (buffer, at) = any_buffer(&mut random, record.len());
        let number = compare(&record, q, r, &buffer, at);
        tally.add(heading, number);
        if number == UNPRINTABLE {
            behind.add(heading, compare(&printable, q, r, &buffer, at));
        }
    }
    println!("{tally}behind an unprintable name:\n{behind}");
    for edition in EDITIONS {
        tally.assert_each(edition_name(edition), OF_READING, 100);
        tally.assert_each(edition_name(edition), [PERMUTATION, ROOM], 100);
        behind.assert_each(edition_name(edition), [0, PERMUTATION, ROOM], 100);
    }
}

/// A bad byte of the name comes behind what else is wrong with a record, and before permutations and
/// room.
#[test]
fn every_byte_of_a_name() {
    for case in generate::every_byte_of_a_name() {
        let record = write::record(&case);
        let buffer = vec![9; record.len() + 3];
        for (q, r, at, number) in [
            (6, 6, 3, 0),
            (2, 6, 3, PERMUTATION),
            (6, COUNT, 3, PERMUTATION),
            (6, 6, 4, ROOM),
            (6, 6, u64::MAX, ROOM),
            (COUNT, 2, u64::MAX, PERMUTATION),
        ] {
            let expected = match case.fault() {
                0 => number,
                fault => fault,
            };
            assert_eq!(compare(&record, q, r, &buffer, at), expected);
            let cut = &record[..record.len() - 1];
            assert_eq!(compare(cut, q, r, &buffer, at), ENDS);
        }
    }
}

/// Permutation numbers and others.
fn numbers() -> impl Iterator<Item = u64> {
    (0..COUNT + 2).chain([1 << 32, u64::MAX - COUNT, u64::MAX])
}

#[test]
fn composites_and_inverses() {
    for q in numbers() {
        for r in numbers() {
            assert_eq!(litmus::composite(q, r), composite(q, r), "{q} then {r}");
        }
        let back = litmus::inverse(q);
        assert_eq!(back, inverse(q), "{q}");
        assert_eq!(litmus::composite(q, back), 0, "{q}");
    }
}

/// Of any number of labels, the greatest too.
#[test]
fn fitting() {
    let mut fitting = 0;
    for q in numbers() {
        for labels in (0..LABELS + 3).chain([1 << 32, usize::MAX - 1, usize::MAX]) {
            let expected = fits(q, labels);
            assert_eq!(litmus::fits(q, labels), expected, "{q} of {labels}");
            fitting += usize::from(expected);
        }
    }
    // With no label or all of them 24 permutations fit, with 1 and 3 labels 6, with 2 labels 4.
    assert_eq!(fitting, 24 * 7 + 2 * 6 + 4);
}
