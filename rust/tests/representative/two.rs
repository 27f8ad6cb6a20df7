//! Two records: whether they are of one class, and which is the lesser.

use litmus::{Choice, Lesser};
use ordinary::generate::{self, damaged, one_event_off, relabelled};
use ordinary::random::Random;
use ordinary::representative::{lesser, renumberings};
use ordinary::tally::Tally;
use ordinary::{read, write, Case};

/// How the second of two cases came from the first.
const RENUMBERED: &str = "renumbered";
const EVENT_OFF: &str = "renumbered, an event changed";
const LITTLE_OFF: &str = "renumbered, up to three changes";
const NAME_OFF: &str = "renumbered, another name";
const ANY: &str = "any two";

fn any_two(random: &mut Random) -> (&'static str, Case, Case) {
    let first = match random.once_in(4) {
        true => generate::tiny(random),
        false => generate::tied(random),
    };
    let (how, second) = match random.below(8) {
        0..=1 => (RENUMBERED, first.clone()),
        2..=4 => match one_event_off(random, &first) {
            Some(second) => (EVENT_OFF, second),
            None => (RENUMBERED, first.clone()),
        },
        5 => (LITTLE_OFF, generate::off(random, first.clone())),
        6 => {
            let mut second = first.clone();
            match second.name.last_mut() {
                Some(last) if *last == b'a' => *last = b'b',
                Some(last) => *last = b'a',
                None => second.name.push(b'a'),
            }
            (NAME_OFF, second)
        }
        _ => (ANY, generate::tied(random)),
    };
    let second = relabelled(random, &second);
    (how, first, second)
}

/// Two records have one representative exactly when one is a renumbering of the other.
#[test]
fn classes_of_two() {
    let mut random = Random::new(83);
    let mut tally = Tally::default();
    for _ in 0..6_000 {
        let (how, first, second) = any_two(&mut random);
        let [mut first_bytes, mut second_bytes] = [&first, &second].map(write::record);
        let is_it = |case: Case| write::record(&case) == second_bytes;
        let renumbered = renumberings(&first).any(is_it);
        for bytes in [&mut first_bytes, &mut second_bytes] {
            let behind = random.below(3);
            bytes.extend(random.bytes(behind));
        }
        for [one, other] in [[&first_bytes, &second_bytes], [&second_bytes, &first_bytes]] {
            let same = litmus::same_class(one, other);
            assert_eq!(same, Ok(renumbered), "{how}: {one:?}, {other:?}");
        }
        tally.add(how, u32::from(renumbered));
    }
    println!("1: of one class:\n{tally}");
    tally.assert_each(RENUMBERED, [1], 1_000);
    tally.assert_each(EVENT_OFF, [0], 1_000);
    tally.assert_each(EVENT_OFF, [1], 20);
    tally.assert_each(LITTLE_OFF, [0], 300);
    tally.assert_each(NAME_OFF, [0], 300);
    tally.assert_each(ANY, [0], 300);
    for (how, number) in [(RENUMBERED, 0), (NAME_OFF, 1)] {
        assert_eq!(tally.times(how, number), 0, "{how}");
    }
}

/// Compares two records with both, and hands back which is the lesser: 1, 2, or 0.
fn compare_two(first: &[u8], second: &[u8]) -> u32 {
    let expected = lesser(first, second);
    let found = litmus::lesser(first, second);
    assert_eq!(found, expected, "{first:?}, {second:?}");
    // The record itself, not only one with the same bytes.
    let start = expected.map(<[u8]>::as_ptr);
    assert_eq!(found.map(<[u8]>::as_ptr), start, "{first:?}, {second:?}");
    let (which, length) = match start {
        None => (None, 0),
        Some(start) if start == first.as_ptr() => (Some(Lesser::First), read::answer(first).length),
        Some(_) => (Some(Lesser::Second), read::answer(second).length),
    };
    assert_eq!(litmus::compared(first, second), which);
    let number = which.map_or(0, |which| which as u32 + 1);
    let choice = Choice {
        which: number,
        length: length as u64,
    };
    assert_eq!(litmus::compared_raw(first, second), choice);
    number
}

/// Of pairs as above, with any bytes behind them; of one record with other bytes behind it; and
/// where one or both are damaged or cut.
#[test]
fn the_lesser_of_two() {
    let mut random = Random::new(84);
    let mut tally = Tally::default();
    for _ in 0..20_000 {
        let (_, first, second) = any_two(&mut random);
        let [first_record, second_record] = [&first, &second].map(write::record);
        let behind = [(); 2].map(|()| {
            let count = random.below(4);
            random.bytes(count)
        });
        let one = [&first_record[..], &behind[0]].concat();
        let other = [&second_record[..], &behind[1]].concat();
        let same = [&first_record[..], &behind[1]].concat();
        tally.add("two records", compare_two(&one, &other));
        tally.add("one record twice", compare_two(&one, &same));
        tally.add("one record and its bytes", compare_two(&one, &one));
        // What is behind one of them would be the other's.
        let longer = [&first_record[..], &second_record].concat();
        tally.add("a longer part", compare_two(&first_record, &longer));
        let cut = &first_record[..random.below(first_record.len())];
        tally.add("the second cut", compare_two(&one, cut));
        tally.add("the first cut", compare_two(cut, &one));
        let bad = [&first, &second].map(|case| damaged(&mut random, case));
        tally.add("the second damaged", compare_two(&one, &bad[1]));
        tally.add("the first damaged", compare_two(&bad[0], &other));
        tally.add("both damaged", compare_two(&bad[0], &bad[1]));
    }
    println!("1: the first is the lesser, 2: the second, 0: one can't be read:\n{tally}");
    tally.assert_each("two records", [1, 2], 1_000);
    for heading in [
        "one record twice",
        "one record and its bytes",
        "a longer part",
    ] {
        tally.assert_each(heading, [1], 20_000);
    }
    for heading in ["the second cut", "the first cut"] {
        tally.assert_each(heading, [0], 20_000);
    }
    for heading in ["the second damaged", "the first damaged", "both damaged"] {
        tally.assert_each(heading, [0, 1, 2], 100);
    }
}

/// Two records that differ in a number's bytes alone: the lesser bytes count, not the lesser number.
#[test]
fn bytes_are_compared() {
    let with = |value| {
        let mut case = Case::empty(1, 1);
        case.initial[0] = value;
        write::record(&case)
    };
    for (a, b, which) in [
        (5, 128, 1),
        (127, 128, 1),
        (128, 129, 1),
        (129, 256, 2),
        (255, 256, 2),
        (129, 16_384, 2),
        (16_383, 16_384, 2),
        (u32::MAX, 1 << 28, 2),
    ] {
        assert_eq!(compare_two(&with(a), &with(b)), which, "{a}, {b}");
        assert_eq!(compare_two(&with(b), &with(a)), 3 - which, "{b}, {a}");
        let mut case = Case::empty(1, 2);
        case.initial = vec![a, b];
        let [there, back] = [vec![a, b], vec![b, a]].map(|initial| {
            case.initial = initial;
            litmus::representative(&write::record(&case)).expect("readable")
        });
        assert_eq!(there, back);
        let initial = read::read(&there).expect("readable").case.initial;
        let expected = if which == 1 { [a, b] } else { [b, a] };
        assert_eq!(initial, expected);
    }
}
