//! The wrapper's own types say what the library's answers say.

use litmus::{compared, lesser, representative, same_class, write_representative};
use litmus::{judge, judge_raw, judged_name, meaning, name, read, read_raw, renumber};
use litmus::{Answer, Case, CaseAnswer, Lesser, Log, Model, Refusal, Rule, Tally, Verdict};
use litmus::{BarrierClass, Steps};
use ordinary::answer::{DISABLED, FLAG, GRAMMAR, UNPRINTABLE};
use ordinary::generate;
use ordinary::judge::RULES;
use ordinary::limits::{most_bytes, most_trace_bytes, EDITIONS, FIRST, SECOND};
use ordinary::limits::{ADDRESSES, DEPENDENCIES, DEPTH, EVENTS, NAME, TEXT, THREADS};
use ordinary::limits::{BARRIERS, LISTED, STEPS, WRITES};
use ordinary::random::Random;
use ordinary::{Class, Kind};
use std::collections::BTreeSet;

const HEADER: &str = include_str!("../../include/litmus.h");

const SMALL: &[u8] = include_bytes!("../../examples/small.litmus");

/// Here and in the header.
#[test]
fn every_number_has_its_own_words() {
    let texts = GRAMMAR..=UNPRINTABLE;
    let numbers = (0..=FLAG).chain(RULES).chain(texts).chain([DISABLED]);
    let words: BTreeSet<&str> = numbers.clone().map(meaning).collect();
    assert_eq!(words.len(), numbers.clone().count());
    assert!([10, 19, 20, 24, 30, 32]
        .iter()
        .all(|&n| !words.contains(meaning(n))));
    for number in numbers {
        assert!(HEADER.contains(&format!("\n *{number:>14}  ")), "{number}");
    }
}

/// Here and in the header.
#[test]
fn limits_of_records() {
    assert_eq!(EDITIONS, [litmus::EDITION_1, litmus::EDITION_2]);
    let bytes = [FIRST, SECOND].map(most_bytes);
    assert_eq!(bytes, [litmus::EDITION_1_BYTES, litmus::EDITION_2_BYTES]);
    assert_eq!(
        litmus::RECORD_BYTES,
        most_bytes(FIRST).max(most_bytes(SECOND))
    );
    let [first, second] = bytes;
    assert!(HEADER.contains(&format!("LITMUS_EDITION_1_BYTES = {first},")));
    assert!(HEADER.contains(&format!("LITMUS_EDITION_2_BYTES = {second},")));
    assert!(HEADER.contains("LITMUS_RECORD_BYTES = LITMUS_EDITION_2_BYTES\n"));
}

/// Here and in the header.
#[test]
fn limits_of_cases_and_conditions() {
    for (name, most, ours) in [
        ("THREADS", THREADS, litmus::THREADS),
        ("ADDRESSES", ADDRESSES, litmus::ADDRESSES),
        ("EVENTS", EVENTS, litmus::EVENTS),
        ("DEPENDENCIES", DEPENDENCIES, litmus::DEPENDENCIES),
        ("NAME_BYTES", NAME, litmus::NAME_BYTES),
        ("CONDITION_BYTES", TEXT, litmus::CONDITION_BYTES),
        ("CONDITION_DEPTH", DEPTH, litmus::CONDITION_DEPTH),
    ] {
        assert_eq!(ours, most, "{name}");
        let line = format!("    LITMUS_{name} = {most}");
        assert!(HEADER.contains(&line), "{name}");
    }
}

/// Here and in the header.
#[test]
fn limits_of_traces() {
    for (name, most, ours) in [
        ("STEPS", STEPS, litmus::STEPS),
        ("WRITES", WRITES, litmus::WRITES),
        ("BARRIERS", BARRIERS, litmus::BARRIERS),
        ("TRACE_BYTES", most_trace_bytes(), litmus::TRACE_BYTES),
    ] {
        assert_eq!(ours, most, "{name}");
        let line = format!("    LITMUS_{name} = {most}");
        assert!(HEADER.contains(&line), "{name}");
    }
    assert_eq!(litmus::LISTED, LISTED);
    assert!(HEADER.contains("    LITMUS_LISTED = LITMUS_WRITES + LITMUS_BARRIERS,\n"));
}

/// Here and in the header.
#[test]
fn kinds_of_steps() {
    for (name, number, ours) in [
        ("ACCEPT_WRITE", 1, Steps::ACCEPT_WRITE),
        ("ACCEPT_BARRIER", 2, Steps::ACCEPT_BARRIER),
        ("PROPAGATE_WRITE", 3, Steps::PROPAGATE_WRITE),
        ("PROPAGATE_BARRIER", 4, Steps::PROPAGATE_BARRIER),
        ("COMMIT", 5, Steps::COMMIT),
        ("RESPOND", 6, Steps::RESPOND),
        ("ACKNOWLEDGE", 7, Steps::ACKNOWLEDGE),
    ] {
        assert_eq!(ours, number, "{name}");
        let stated = format!(" LITMUS_{name} = {number}");
        assert!(HEADER.contains(&stated), "{name}");
    }
    assert_eq!(
        [BarrierClass::Sync as u8, BarrierClass::Lwsync as u8],
        [0, 1]
    );
}

/// Here and in the header.
#[test]
fn kinds_and_classes() {
    for (name, number, ours) in [
        ("LOAD", Kind::Load as u8, Case::LOAD),
        ("STORE", Kind::Store as u8, Case::STORE),
        ("SYNC", Kind::Sync as u8, Case::SYNC),
        ("LWSYNC", Kind::Lwsync as u8, Case::LWSYNC),
        ("BY_ADDRESS", Class::Address as u8, Case::BY_ADDRESS),
        ("BY_DATA", Class::Data as u8, Case::BY_DATA),
        ("BY_CONTROL", Class::Control as u8, Case::BY_CONTROL),
    ] {
        assert_eq!(ours, number, "{name}");
        let stated = format!(" LITMUS_{name} = {number}");
        assert!(HEADER.contains(&stated), "{name}");
    }
}

/// Here and in the header.
#[test]
fn rules_of_a_tally() {
    assert_eq!(litmus::FIRST_RULE, *RULES.start());
    assert_eq!(litmus::RULES, RULES.count());
    let (first, count) = (litmus::FIRST_RULE, litmus::RULES);
    let line = format!("enum {{ LITMUS_FIRST_RULE = {first}, LITMUS_RULES = {count} }};\n");
    assert!(HEADER.contains(&line), "{line}");
}

/// A buffer of the most bytes takes any record.
#[test]
fn the_greatest_record_fits() {
    for edition in EDITIONS {
        let record = ordinary::write::record(&generate::greatest(edition));
        let mut out = [0; litmus::RECORD_BYTES];
        assert_eq!(renumber(&record, 0, 0, &mut out, 0), Ok(record.len()));
        assert_eq!(out[..record.len()], record);
    }
}

/// A verdict in the library's own type.
fn untyped(typed: Result<Verdict, Refusal>) -> Answer {
    let mut answer = Answer::default();
    match typed {
        Ok(Verdict::Accepted { length, finals }) => {
            answer.length = length as u64;
            answer.finals[..finals.len()].copy_from_slice(&finals);
        }
        Ok(Verdict::Broken { length, rule }) => {
            assert!(RULES.contains(&rule.0));
            (answer.number, answer.length) = (rule.0, length as u64);
        }
        Err(Refusal { number, place }) => {
            (answer.number, answer.place) = (number, place.unwrap_or(0) as u64);
        }
    }
    answer
}

#[test]
fn typed_answers_are_the_raw_ones() {
    let mut random = Random::new(50);
    for _ in 0..5_000 {
        let record = generate::any_record(&mut random);
        let CaseAnswer { answer: raw, case } = Case::read_raw(&record);
        for model in [Model::PpcW, Model::PpcS] {
            let judged = judge(&record, model);
            assert_eq!(untyped(judged), judge_raw(&record, model as u64));
            assert_eq!(judged_name(&record, model), name(&record));
            if let Ok(Verdict::Accepted { finals, .. }) = judged {
                assert_eq!(finals.len(), case.addresses);
            }
            let of_case = case.judge(model);
            assert_eq!(untyped(of_case), case.judge_raw(model as u64));
            assert!(raw.number != 0 || of_case == judged);
        }
        assert_eq!(read_raw(&record), raw);
        match read(&record) {
            Ok(length) => assert_eq!((raw.number, raw.length), (0, length as u64)),
            Err(refusal) => assert_eq!(refusal, raw.into()),
        }
        match Case::read(&record) {
            Ok(same) => assert!(raw.number == 0 && same == case),
            Err(refusal) => assert_eq!(refusal, raw.into()),
        }
    }
}

/// A case that was read is written and renumbered as its record is.
#[test]
fn cases_are_written_and_renumbered() {
    let mut out = [9; 24];
    let case = Case::read(SMALL).expect("readable");
    assert_eq!(case.record().as_deref(), Ok(SMALL));
    assert_eq!(case.write(&mut out, 2), Ok(SMALL.len()));
    assert_eq!(out, *[&[9; 2], SMALL, &[9; 3]].concat());
    let refused = |number| Refusal {
        number,
        place: None,
    };
    assert_eq!(case.write(&mut out, 6), Err(refused(6)));
    assert_eq!(case.renumber(0, 1), Ok(case));
    assert_eq!(case.renumber(6, 0), Err(refused(5)));
    let faulty = Case { threads: 0, ..case };
    assert_eq!(faulty.write(&mut out, 6), Err(refused(3)));
    assert_eq!(faulty.record(), Err(refused(3)));
    assert_eq!(faulty.renumber(6, 0), Err(refused(3)));
    assert_eq!(faulty.judge(Model::PpcW), Err(refused(3)));
    assert_eq!(out, *[&[9; 2], SMALL, &[9; 3]].concat());
}

#[test]
fn renumbers_into_a_buffer() {
    let mut out = [9; 24];
    assert_eq!(renumber(SMALL, 0, 0, &mut out, 2), Ok(SMALL.len()));
    assert_eq!(out, *[&[9; 2], SMALL, &[9; 3]].concat());
    let refused = |number| {
        Err(Refusal {
            number,
            place: None,
        })
    };
    assert_eq!(renumber(SMALL, 6, 0, &mut out, 2), refused(5));
    assert_eq!(renumber(SMALL, 0, 0, &mut out, 6), refused(6));
}

/// A sync of thread 0, which sees nothing, and a pair that thread 1 sees; and with the threads swapped.
const TWO_ORDERS: &[u8] = &[1, 2, 1, 0, 1, 2, 0, 0, 1, 0, 0, 1, 97];
const SWAPPED: &[u8] = &[1, 2, 1, 0, 1, 2, 1, 1, 0, 0, 0, 1, 97];

#[test]
fn representatives() {
    assert_eq!(representative(SWAPPED).as_deref(), Ok(TWO_ORDERS));
    assert_eq!(representative(TWO_ORDERS).as_deref(), Ok(TWO_ORDERS));
    let mut out = [9; 18];
    assert_eq!(write_representative(SWAPPED, &mut out, 2), Ok(13));
    let written = [&[9; 2], TWO_ORDERS, &[9; 3]].concat();
    assert_eq!(out, *written);
    let refused = |number, place| Refusal { number, place };
    let no_room = Err(refused(6, None));
    assert_eq!(write_representative(SWAPPED, &mut out, 6), no_room);
    assert_eq!(write_representative(SWAPPED, &mut out, usize::MAX), no_room);
    assert_eq!(out, *written);
    let cut = &SWAPPED[..12];
    let ends = refused(1, Some(12));
    assert_eq!(representative(cut), Err(ends));
    assert_eq!(write_representative(cut, &mut out, 6), Err(ends));

    let [case, least] = [SWAPPED, TWO_ORDERS].map(|record| Case::read(record).expect("readable"));
    assert_eq!(case.representative(), Ok(least));
    let faulty = Case { threads: 0, ..case };
    assert_eq!(faulty.representative(), Err(refused(3, None)));
}

#[test]
fn one_of_two_records() {
    let behind = [TWO_ORDERS, &[0]].concat();
    for (first, second, which, record) in [
        (TWO_ORDERS, SWAPPED, Some(Lesser::First), Some(TWO_ORDERS)),
        (SWAPPED, TWO_ORDERS, Some(Lesser::Second), Some(TWO_ORDERS)),
        (&behind, TWO_ORDERS, Some(Lesser::First), Some(TWO_ORDERS)),
        (TWO_ORDERS, &behind, Some(Lesser::First), Some(TWO_ORDERS)),
        (SMALL, &SMALL[1..], None, None),
        (&[], SMALL, None, None),
    ] {
        assert_eq!(compared(first, second), which);
        assert_eq!(lesser(first, second), record);
    }
}

/// Of two that can't be read, the first one's refusal is given.
#[test]
fn classes_of_two() {
    assert_eq!(same_class(TWO_ORDERS, SWAPPED), Ok(true));
    assert_eq!(same_class(SMALL, SWAPPED), Ok(false));
    let refused = |number, place| {
        let place = Some(place);
        Err(Refusal { number, place })
    };
    assert_eq!(same_class(SMALL, &[]), refused(1, 0));
    assert_eq!(same_class(&[1, 9], SMALL), refused(3, 1));
    assert_eq!(same_class(&[1, 9], &[]), refused(3, 1));
}

/// A log's tally so far, and its summary in words.
#[test]
fn logs() {
    let mut log = Log::new();
    log.feed(&SMALL[..7]);
    assert_eq!((log.tally(), log.has_ended()), (Tally::default(), false));
    log.feed(&[&SMALL[7..], TWO_ORDERS, &SMALL[..4]].concat());
    let mut tally = Tally::default();
    (tally.records, tally.accepted, tally.broken[0]) = (2, 1, 1);
    assert_eq!((log.tally(), log.has_ended()), (tally, false));
    let cut = "then refused with 1: the bytes end inside a number or the name (byte 36)";
    let counted = "records: 2, accepted: 1, rule 11: 1";
    assert_eq!(log.finish().to_string(), format!("{counted}; {cut}"));

    tally.accepted = u32::MAX;
    let mut log = Log::with(tally);
    log.feed(TWO_ORDERS);
    assert_eq!(log.tally().records, 3);
    log.feed(SMALL);
    assert!(log.has_ended());
    let full = log.finish();
    tally.broken[0] = 2;
    tally.records = 3;
    assert_eq!(full.tally, tally);
    let refusal = full.refusal.expect("a full count");
    assert_eq!((refusal.number, refusal.place), (6, None));

    let none = Log::new().finish();
    assert_eq!(none.to_string(), "records: 0, accepted: 0");
    assert_eq!((none.tally, none.refusal), (Tally::default(), None));
}

#[test]
fn an_unprintable_name_is_refused() {
    let mut record = SMALL.to_vec();
    let place = record.len() - 1;
    record[place] = b'\n';
    let refusal = Refusal {
        number: UNPRINTABLE,
        place: Some(place),
    };
    assert_eq!(read(&record), Err(refusal));
    for model in [Model::PpcW, Model::PpcS] {
        assert_eq!(judge(&record, model), Err(refusal));
    }
    let mut out = [9; 24];
    assert_eq!(renumber(&record, 6, 6, &mut out, 9), Err(refusal));
    assert_eq!(out, [9; 24]);
    assert_eq!(name(&record), b"");
}

#[test]
fn texts() {
    for (number, place, text) in [
        (3, Some(0), "3: a number is outside its range (byte 0)"),
        (3, None, "3: a number is outside its range"),
        (7, None, "7: no such model"),
        (
            8,
            None,
            "8: bytes behind the last finished frame are not FF; a repair clears them",
        ),
        (
            9,
            Some(20),
            "9: a frame's flag is neither 00 nor FF (byte 20)",
        ),
        (
            23,
            Some(18),
            "23: a byte of the name is not printable ASCII (byte 18)",
        ),
    ] {
        let refusal = Refusal { number, place };
        assert_eq!(refusal.to_string(), format!("refused with {text}"));
    }
    assert!(Rule(14).to_string().starts_with("rule 14: "));
}

/// As many as the case has addresses.
#[test]
fn finals_are_printed() {
    let mut case = Case {
        edition: litmus::EDITION_1.into(),
        threads: 1,
        initial: [7, 0, 0, 9],
        ..Case::empty()
    };
    for (addresses, finals) in [(1, "7"), (2, "7 0"), (3, "7 0 0"), (4, "7 0 0 9")] {
        case.addresses = addresses;
        let record = case.record().expect("without fault");
        for verdict in [case.judge(Model::PpcW), judge(&record, Model::PpcS)] {
            let text = verdict.expect("without fault").to_string();
            assert_eq!(text, format!("possible: finals {finals}"));
        }
    }
}
