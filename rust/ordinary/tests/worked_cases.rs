//! The cases whose answers the definition itself gives.

use ordinary::answer::{
    Answer, ENDS, FORM, MISPLACED, MODEL, PERMUTATION, RANGE, ROOM, UNPRINTABLE,
};
use ordinary::judge::{judge, judge_case, PPCS, PPCW};
use ordinary::limits::{
    most_bytes, ADDRESSES, DEPENDENCIES, EDITIONS, EVENTS, FIRST, GROUPS, NAME, SECOND, THREADS,
    VALUE,
};
use ordinary::permutation::{composite, fits, images, inverse, COUNT};
use ordinary::renumber::{renumber, renumber_case};
use ordinary::{generate, read, rows, text, write};
use ordinary::{Case, Class, Dependency, Event, Kind, Order};

const SMALL: [u8; 19] = [1, 1, 1, 0, 2, 1, 0, 0, 1, 0, 0, 0, 1, 0, 1, 0, 1, 1, 0x61];

/// Each example by its name: the numbers under PPCw and PPCs.
const ANSWERS: [(&str, [u32; 2]); 20] = [
    ("small", [0, 0]),
    ("load-0", [16, 16]),
    ("load-2", [16, 16]),
    ("no-pairs", [12, 12]),
    ("two-way", [11, 11]),
    ("reversed", [13, 13]),
    ("write-order", [14, 14]),
    ("dekker", [0, 16]),
    ("message", [18, 18]),
    ("message-ordered", [0, 0]),
    ("message-unseen", [15, 15]),
    ("cc", [17, 17]),
    ("iriw", [0, 15]),
    ("lone-load", [15, 15]),
    ("sb-lwsync", [0, 0]),
    ("sb-sync", [17, 17]),
    ("mp-lwsync", [16, 16]),
    ("mp-one-sync", [0, 0]),
    ("mp-dependency", [13, 13]),
    ("iriw-lwsync", [0, 15]),
];

fn example(name: &str) -> Case {
    let folder = concat!(env!("CARGO_MANIFEST_DIR"), "/../../examples");
    let file = format!("{folder}/{name}.txt");
    let source = std::fs::read_to_string(&file).expect(&file);
    text::parse(&source).unwrap_or_else(|fault| panic!("{file}: {fault}"))
}

/// An accepted answer with these final values.
fn accepted(case: &Case, finals: &[u32]) -> Answer {
    let mut answer = Answer::done(write::size(case));
    answer.finals[..finals.len()].copy_from_slice(finals);
    answer
}

fn refused(number: u32, place: usize) -> Answer {
    Answer {
        number,
        place,
        ..Answer::default()
    }
}

#[test]
fn every_answer() {
    for (name, numbers) in ANSWERS {
        let case = example(name);
        for (model, number) in [PPCW, PPCS].into_iter().zip(numbers) {
            let answer = judge_case(&case, model);
            assert_eq!(answer.number, number, "{name} under {model}");
            assert_eq!(answer.length, write::size(&case), "{name} under {model}");
            assert_eq!(answer, judge(&write::record(&case), model), "{name}");
        }
    }
}

#[test]
fn finals() {
    let both = [1, 1];
    for (name, finals) in [
        ("small", &[1][..]),
        ("dekker", &both),
        ("iriw", &both),
        ("sb-lwsync", &both),
        ("iriw-lwsync", &both),
    ] {
        let case = example(name);
        assert_eq!(judge_case(&case, PPCW), accepted(&case, finals), "{name}");
    }
    let case = example("dekker");
    assert_eq!(judge_case(&case, PPCS).finals, [0; ADDRESSES]);
}

#[test]
fn the_small_record() {
    assert_eq!(write::record(&example("small")), SMALL);
    assert_eq!(read::answer(&SMALL), Answer::done(SMALL.len()));
    assert_eq!(read::name(&SMALL), b"a");
    assert_eq!(read::name(&SMALL[..18]), b"");
    let number = |at, value| {
        let mut record = SMALL;
        record[at] = value;
        read::answer(&record)
    };
    assert_eq!(number(0, 0), refused(RANGE, 0));
    assert_eq!(number(0, SECOND as u8 + 1), refused(RANGE, 0));
    let lwsync = Kind::Lwsync as u8;
    assert_eq!(number(5, lwsync), refused(RANGE, 5), "in edition 1");
    assert_eq!(number(1, THREADS as u8 + 1), refused(RANGE, 1));
    assert_eq!(number(2, 0), refused(RANGE, 2));
    assert_eq!(
        number(13, 1),
        refused(MISPLACED, 13),
        "a load in a write order"
    );
    assert_eq!(number(13, 2), refused(RANGE, 13));
    assert_eq!(number(17, NAME as u8 + 1), refused(RANGE, 17));
    assert_eq!(number(17, NAME as u8), refused(ENDS, 18));
    assert_eq!(number(18, 0x1f), refused(UNPRINTABLE, 18));
}

/// Every call refuses the case's record with this number and place, whatever else it is handed, and
/// the case itself with place 0. Only the model comes before.
fn refused_alike(case: &Case, number: u32, place: usize) {
    let (record, answer) = (write::record(case), refused(number, place));
    assert_eq!(read::answer(&record), answer, "{case:?}");
    assert_eq!(read::name(&record), b"", "{case:?}");
    for model in [PPCW, PPCS] {
        assert_eq!(judge(&record, model), answer, "{case:?}");
        assert_eq!(rows::judge(&record, model), answer, "{case:?}");
        assert_eq!(judge_case(case, model), refused(number, 0), "{case:?}");
    }
    assert_eq!(judge(&record, PPCS + 1), Answer::refused(MODEL));
    assert_eq!(judge_case(case, PPCS + 1), Answer::refused(MODEL));
    let length = record.len();
    for (q, r, room) in [(0, 0, length), (COUNT, 0, length), (0, COUNT, 0), (0, 0, 0)] {
        let mut out = vec![9; room];
        assert_eq!(renumber(&record, q, r, &mut out, 0), answer, "{case:?}");
        assert_eq!(renumber_case(case, q, r), Err(number), "{case:?}");
        assert_eq!(write::write(case, &mut out, 0), refused(number, 0));
        assert_eq!(out, vec![9; room], "{case:?}");
    }
}

/// In every edition, only 32 to 126 may stand in a name.
#[test]
fn every_byte_of_a_name() {
    let mut bad = 0;
    for case in generate::every_byte_of_a_name() {
        let record = write::record(&case);
        let start = record.len() - case.name.len();
        match case.name.iter().position(|b| !(32..=126).contains(b)) {
            Some(at) => {
                refused_alike(&case, 23, start + at);
                bad += 1;
            }
            None => {
                assert_eq!(judge(&record, PPCS), accepted(&case, &[7, 8]));
                assert_eq!(read::name(&record), case.name);
                assert_eq!(case.fault(), 0);
            }
        }
    }
    let places = 1 + 2 + 3 + 3;
    assert_eq!(bad, EDITIONS.len() * places * (256 - (126 - 32 + 1)));
}

/// A bad name comes behind everything else that is wrong with a record, and before the rules.
#[test]
fn when_a_name_is_refused() {
    for (name, _) in ANSWERS {
        let mut case = example(name);
        *case.name.last_mut().expect("a name") = 0x7f;
        refused_alike(&case, UNPRINTABLE, write::size(&case) - 1);
    }
    let changed = |number, place, change: fn(&mut Case)| {
        let mut case = example("dekker");
        case.name = vec![b'a', 0x1f, 0x80];
        change(&mut case);
        refused_alike(&case, number, place);
    };
    changed(UNPRINTABLE, 72, |_| {});
    changed(RANGE, 0, |case| case.edition = SECOND + 1);
    changed(RANGE, 7, |case| case.events[0].thread = 2);
    changed(RANGE, 26, |case| case.write_orders[0] = vec![6]);
    changed(MISPLACED, 26, |case| case.write_orders[0] = vec![3]);
    changed(RANGE, 70, |case| case.name = vec![0; NAME + 1]);
    let short = [&SMALL[..17], &[2, 0]].concat();
    assert_eq!(read::answer(&short), refused(ENDS, 18));
    let long = [&SMALL[..17], &[0x81, 0, 0]].concat();
    assert_eq!(read::answer(&long), refused(FORM, 17));
}

#[test]
fn numbers() {
    let initial = |bytes: &[u8]| read::answer(&[&[1, 1, 1], bytes].concat());
    assert_eq!(read::answer(&[]), refused(ENDS, 0));
    assert_eq!(initial(&[0x80, 0]), refused(FORM, 3));
    assert_eq!(initial(&[0x80, 0x80, 0x80, 0x80, 0]), refused(FORM, 3));
    assert_eq!(initial(&[0x80; 5]), refused(FORM, 3));
    assert_eq!(initial(&[0x80; 4]), refused(ENDS, 3));
    assert_eq!(initial(&[0x80; 3]), refused(ENDS, 3));
    assert_eq!(initial(&[0x80, 0x80, 0x80, 0x80, 0x10]), refused(RANGE, 3));
    // Both are read, and then the bytes end.
    assert_eq!(initial(&[0x80, 0x80, 4]), refused(ENDS, 6));
    assert_eq!(initial(&[0xff, 0xff, 0xff, 0xff, 0xf]), refused(ENDS, 8));
    assert_eq!(write::number(0), [0]);
    assert_eq!(write::number(65_535), [0xff, 0xff, 3]);
    assert_eq!(write::number(65_536), [0x80, 0x80, 4]);
    assert_eq!(write::number(VALUE.into()), [0xff, 0xff, 0xff, 0xff, 0xf]);
}

#[test]
fn most_events() {
    let mut case = Case::empty(1, 1);
    case.events = vec![Event::sync(0); EVENTS];
    case.orders[0] = Order::total(&(0..EVENTS).collect::<Vec<_>>());
    assert_eq!(judge_case(&case, PPCS), accepted(&case, &[]));
    case.events.push(Event::sync(0));
    assert_eq!(case.fault(), RANGE);
    let mut numbers = vec![1, 1, 1, 0, EVENTS as u8 + 1];
    assert_eq!(read::answer(&numbers), refused(RANGE, 4));
    numbers[4] = EVENTS as u8;
    assert_eq!(read::answer(&numbers), refused(ENDS, 5));
}

#[test]
fn the_greatest_records() {
    for edition in EDITIONS {
        let record = write::record(&generate::greatest(edition));
        assert_eq!(record.len(), most_bytes(edition));
        assert_eq!(read::answer(&record), Answer::done(record.len()));
    }
}

/// Reads a record of the second edition with these events of one thread or two, and these numbers
/// behind them, up to the name.
fn second(events: &[Event], behind: &[u8]) -> Answer {
    let mut front = vec![SECOND as u8, 2, 1, 0, events.len() as u8];
    for event in events {
        front.extend([event.kind as u8, event.thread as u8]);
        if !event.is_barrier() {
            front.extend([event.address as u8, event.value as u8]);
        }
    }
    let answer = read::answer(&[&front[..], behind].concat());
    Answer {
        place: answer.place.saturating_sub(front.len()),
        length: answer.length.saturating_sub(front.len()),
        ..answer
    }
}

const LOAD: Event = Event {
    kind: Kind::Load,
    thread: 0,
    address: 0,
    value: 0,
};
const STORE: Event = Event {
    kind: Kind::Store,
    ..LOAD
};
const LWSYNC: Event = Event {
    kind: Kind::Lwsync,
    ..LOAD
};
const SYNC: Event = Event {
    kind: Kind::Sync,
    ..LOAD
};

/// Places count from the number of dependencies on.
#[test]
fn dependencies_of_a_record() {
    let one = |events: &[Event], dependency: [u8; 3]| {
        let stores = (0..events.len() as u8).filter(|&e| events[e as usize].is_store());
        let behind = [vec![1], dependency.to_vec(), stores.collect(), vec![0; 3]];
        second(events, &behind.concat())
    };
    let other = Event { thread: 1, ..STORE };
    for class in 0..3 {
        assert_eq!(one(&[LOAD, STORE], [class, 0, 1]), Answer::done(8));
    }
    assert_eq!(one(&[LOAD, LOAD], [0, 0, 1]), Answer::done(7));
    assert_eq!(one(&[LOAD, LWSYNC, STORE], [1, 0, 2]), Answer::done(8));
    let unfit = [
        ([LOAD, LOAD], [1, 0, 1], "data to a load"),
        ([LOAD, LOAD], [2, 0, 1], "control to a load"),
        ([STORE, LOAD], [0, 0, 1], "from a store"),
        ([LWSYNC, LOAD], [0, 0, 1], "from an lwsync"),
        ([SYNC, STORE], [1, 0, 1], "from a sync"),
        ([LOAD, LWSYNC], [0, 0, 1], "to an lwsync"),
        ([LOAD, SYNC], [2, 0, 1], "to a sync"),
        ([LOAD, STORE], [0, 0, 0], "to itself"),
        ([STORE, LOAD], [1, 1, 0], "to an event listed before"),
        ([LOAD, other], [1, 0, 1], "to another thread"),
    ];
    for (events, dependency, what) in unfit {
        assert_eq!(one(&events, dependency), refused(MISPLACED, 1), "{what}");
    }
    assert_eq!(one(&[LOAD, STORE], [3, 0, 1]), refused(RANGE, 1));
    assert_eq!(one(&[LOAD, STORE], [0, 2, 1]), refused(RANGE, 2));
    assert_eq!(one(&[LOAD, STORE], [0, 1, 2]), refused(RANGE, 3));
    assert_eq!(one(&[], [0, 0, 0]), refused(RANGE, 2), "there is no event");
}

#[test]
fn dependencies_must_rise() {
    let events = [LOAD, LOAD, STORE];
    let two = |first: [u8; 3], second_one: [u8; 3]| {
        let behind = [&[2], &first[..], &second_one, &[2, 0, 0, 0]].concat();
        second(&events, &behind)
    };
    let rising = [
        [0, 0, 1],
        [0, 0, 2],
        [1, 0, 2],
        [2, 0, 2],
        [0, 1, 2],
        [1, 1, 2],
    ];
    for (i, &first) in rising.iter().enumerate() {
        for (j, &then) in rising.iter().enumerate() {
            let expected = match i < j {
                true => Answer::done(11),
                false => refused(MISPLACED, 4),
            };
            assert_eq!(two(first, then), expected, "{first:?} and then {then:?}");
        }
    }
}

#[test]
fn numbers_of_dependencies() {
    let events = [LOAD, STORE];
    assert_eq!(second(&events, &[]), refused(ENDS, 0));
    assert_eq!(second(&events, &[0, 1, 0, 0, 0]), Answer::done(5));
    assert_eq!(
        second(&events, &[DEPENDENCIES as u8 + 1]),
        refused(RANGE, 0)
    );
    assert_eq!(second(&events, &[DEPENDENCIES as u8]), refused(ENDS, 1));
    assert_eq!(second(&events, &[1, 1, 0]), refused(ENDS, 3));
    assert_eq!(second(&events, &[1, 0x81, 0]), refused(FORM, 1));
    let too_many = [&[1, 0], &[0x80; GROUPS][..]].concat();
    assert_eq!(second(&events, &too_many), refused(FORM, 2));
    assert_eq!(second(&[], &[1, 0, 0x80]), refused(ENDS, 2));
    let past_the_kinds = Kind::ALL.len() as u8;
    let record = [SECOND as u8, 1, 1, 0, 1, past_the_kinds];
    assert_eq!(read::answer(&record), refused(RANGE, 5));
}

/// A barrier of thread 0 with an event before it and one behind, of which thread 1 knows nothing.
#[test]
fn what_an_lwsync_orders() {
    let verdict = |barrier: Event, earlier: Event, later: Event| {
        let mut case = Case::empty(2, 2);
        case.edition = SECOND;
        case.events = vec![
            earlier,
            barrier,
            Event {
                address: 1,
                ..later
            },
        ];
        for address in 0..2 {
            case.write_orders[address] = case.stores_to(address);
        }
        case.orders[0] = Order::total(&[0, 1, 2]);
        judge_case(&case, PPCS).number
    };
    for earlier in [LOAD, STORE, SYNC, LWSYNC] {
        for later in [LOAD, STORE, SYNC, LWSYNC] {
            let what = format!("{:?} before {:?}", earlier.kind, later.kind);
            assert_eq!(verdict(SYNC, earlier, later), 17, "a sync, {what}");
            let both_access = !earlier.is_barrier() && !later.is_barrier();
            let orders = both_access && (earlier.is_load() || later.is_store());
            let expected = if orders { 17 } else { 0 };
            assert_eq!(verdict(LWSYNC, earlier, later), expected, "{what}");
        }
    }
}

#[test]
fn pairs_must_rise() {
    let pairs = |pairs: [u8; 4]| {
        let front = [1, 1, 1, 0, 2, 2, 0, 2, 0, 2];
        read::answer(&[&front[..], &pairs, &[0]].concat())
    };
    assert_eq!(pairs([0, 1, 1, 0]), Answer::done(15));
    assert_eq!(pairs([0, 1, 0, 1]), refused(MISPLACED, 12));
    assert_eq!(pairs([1, 0, 0, 1]), refused(MISPLACED, 12));
    assert_eq!(
        pairs([1, 0, 0, 2]),
        refused(RANGE, 13),
        "range before order"
    );
}

#[test]
fn faults_of_a_case() {
    let fault = |change: fn(&mut Case)| {
        let mut case = example("dekker");
        change(&mut case);
        let mut out = [7; 200];
        let answer = write::write(&case, &mut out, 0);
        assert_eq!(answer, Answer::refused(case.fault()));
        assert_eq!(judge_case(&case, PPCW), answer);
        assert_eq!(out, [7; 200]);
        answer.number
    };
    assert_eq!(fault(|case| case.edition = 0), RANGE);
    assert_eq!(fault(|case| case.edition = SECOND + 1), RANGE);
    assert_eq!(fault(|case| case.events[1] = Event::lwsync(0)), RANGE);
    assert_eq!(fault(|case| case.orders.clear()), RANGE);
    if let Some(value) = VALUE.checked_add(1) {
        let mut case = example("dekker");
        case.initial[1] = value;
        assert_eq!(case.fault(), RANGE);
    }
    assert_eq!(fault(|case| case.events[2].thread = 2), RANGE);
    assert_eq!(fault(|case| case.events[5].address = 2), RANGE);
    assert_eq!(fault(|case| case.write_orders[0] = vec![6]), RANGE);
    assert_eq!(fault(|case| case.write_orders[0] = vec![3]), MISPLACED);
    assert_eq!(fault(|case| case.write_orders[0] = vec![]), MISPLACED);
    assert_eq!(fault(|case| case.write_orders[0] = vec![0, 0]), MISPLACED);
    assert_eq!(fault(|case| case.name = vec![b'n'; NAME + 1]), RANGE);
    assert_eq!(fault(|case| case.name = vec![b'\t']), UNPRINTABLE);
}

#[test]
fn faults_of_dependencies() {
    let dependency = |class, from, to| Dependency { from, to, class };
    let fault = |dependencies: &[Dependency], written: usize| {
        let mut case = Case::empty(1, 1);
        case.edition = SECOND;
        case.events = vec![LOAD, STORE];
        case.dependencies = dependencies.to_vec();
        case.write_orders[0] = vec![written];
        case.orders[0] = Order::total(&[0, 1]);
        let mut out = [7; 400];
        let answer = write::write(&case, &mut out, 0);
        assert_eq!(judge_case(&case, PPCS).number, case.fault());
        case.edition = FIRST;
        let of_write_order = [MISPLACED, 0, RANGE][written];
        assert_eq!(case.fault(), of_write_order, "without dependencies");
        answer.number
    };
    let good = Class::ALL.map(|class| dependency(class, 0, 1));
    let [address, data, _] = good;
    assert_eq!(fault(&good, 1), 0);
    assert_eq!(fault(&[address; DEPENDENCIES + 1], 1), RANGE);
    assert_eq!(fault(&[dependency(Class::Data, 2, 1)], 0), RANGE);
    assert_eq!(fault(&[dependency(Class::Data, 1, 2)], 0), RANGE);
    assert_eq!(fault(&[dependency(Class::Data, 1, 0)], 2), MISPLACED);
    assert_eq!(fault(&[address, address], 2), MISPLACED);
    assert_eq!(fault(&[data, address], 2), MISPLACED);
    assert_eq!(fault(&good, 2), RANGE, "the write order comes last");
}

#[test]
fn renumbering() {
    let mut out = [9; 25];
    assert_eq!(
        renumber(&SMALL, 0, 6, &mut out, 3),
        Answer::refused(PERMUTATION)
    );
    assert_eq!(
        renumber(&SMALL, COUNT, 0, &mut out, 3),
        Answer::refused(PERMUTATION)
    );
    assert_eq!(renumber(&SMALL, 0, 0, &mut out, 7), Answer::refused(ROOM));
    assert_eq!(
        renumber(&SMALL, 0, 0, &mut out, usize::MAX),
        Answer::refused(ROOM)
    );
    assert_eq!(out, [9; 25]);
    assert_eq!(renumber(&SMALL, 0, 1, &mut out, 3), Answer::done(19));
    assert_eq!(out, *[&[9; 3], &SMALL[..], &[9; 3]].concat());
}

#[test]
fn permutations() {
    assert_eq!(images(0), [0, 1, 2, 3]);
    assert_eq!(images(COUNT - 1), [3, 2, 1, 0]);
    assert_eq!(images(9), [1, 2, 3, 0]);
    assert_eq!(images(COUNT), images(0));
    assert_eq!(composite(1, 6), 7);
    assert_eq!(composite(9, 9), 16);
    assert_eq!(composite(1, 2), 3);
    assert_eq!(composite(2, 1), 4);
    assert_eq!(inverse(3), 4);
    for q in 0..COUNT {
        assert_eq!(composite(q, inverse(q)), 0);
        assert!(fits(q, THREADS));
    }
    assert!(fits(1, 1) && fits(1, 2) && !fits(6, 1) && fits(6, 2));
    assert!(!fits(COUNT, THREADS));
}
