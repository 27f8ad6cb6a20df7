//! Judging: all fields agree on accepted cases, cases a little off, and damaged bytes.

mod common;

use common::plain;
use ordinary::answer::MODEL;
use ordinary::generate;
use ordinary::judge::{judge, printed_verdict, PPCS, PPCW, RULES};
use ordinary::judge::{verdict_with_16_bits, verdict_with_syncs, verdict_without_dependencies};
use ordinary::limits::{EDITIONS, EVENTS};
use ordinary::random::Random;
use ordinary::tally::{heading, model_name, stated_edition, Tally};
use ordinary::{read, rows, write, Case};

const INPUTS: usize = 200_000;

/// Judges with both, compares answers and names, and hands back the number.
fn compare(record: &[u8], model: u64) -> u32 {
    let expected = judge(record, model);
    let answer = plain(litmus::judge_raw(record, model));
    assert_eq!(answer, expected, "{record:?} under {model}");
    let named = if model == PPCW || model == PPCS {
        record
    } else {
        &[]
    };
    let part = litmus::judged_name_raw(record, model);
    let part = (part.at as usize, part.length as usize);
    assert_eq!(part, read::name_part(named), "{record:?} under {model}");
    expected.number
}

/// Counts of answers that would be other ones under other rules.
#[derive(Default)]
struct Changes {
    own_events: Tally,
    lwsyncs: Tally,
    dependencies: Tally,
    high_bits: Tally,
}

impl Changes {
    fn add(&mut self, record: &[u8], model: u64, number: u32) {
        let Ok(reading) = read::read(record) else {
            return;
        };
        let case = &reading.case;
        // Under PPCw there is none, and under PPCs it is 15 or 16.
        if printed_verdict(case, model) != number {
            assert_eq!(model, PPCS, "{record:?}");
            assert!((15..=16).contains(&number), "{record:?}");
            self.own_events.add(model_name(model), number);
        }
        let with_syncs = verdict_with_syncs(case, model);
        if with_syncs != number {
            self.lwsyncs.add(model_name(model), with_syncs);
        }
        if verdict_without_dependencies(case, model) != number {
            self.dependencies.add(model_name(model), number);
        }
        if verdict_with_16_bits(case, model) != number {
            self.high_bits.add(model_name(model), number);
        }
    }

    fn assert_enough(&self) {
        println!(
            "answers that a thread's own events in V(p) change:\n{}",
            self.own_events
        );
        self.own_events.assert_each(model_name(PPCS), 15..=16, 20);
        println!("other answers if lwsyncs were syncs:\n{}", self.lwsyncs);
        println!("answers that dependencies change:\n{}", self.dependencies);
        println!("answers that more than 16 bits change:\n{}", self.high_bits);
        for model in [PPCW, PPCS] {
            self.high_bits.assert_each(model_name(model), 15..=16, 20);
            self.lwsyncs.assert_each(model_name(model), 17..=18, 20);
            self.dependencies.assert_each(model_name(model), [13], 20);
        }
    }
}

#[test]
fn generated_inputs() {
    let mut random = Random::new(20);
    let mut tally = Tally::default();
    let mut changes = Changes::default();
    for _ in 0..INPUTS {
        let record = generate::any_record(&mut random);
        let edition = stated_edition(&record);
        let numbers = [PPCW, PPCS].map(|model| {
            let number = compare(&record, model);
            tally.add_judged(&record, model, number);
            changes.add(&record, model, number);
            number
        });
        assert!(numbers[1] != 0 || numbers[0] == 0, "{record:?}");
        let other = random.any_number();
        tally.add(heading(edition, other), compare(&record, other));
        tally.add_unfit(&record);
    }
    println!("how often each number came up in {INPUTS} inputs:\n{tally}");
    tally.assert_judged(100);
    tally.assert_unfit(100);
    changes.assert_enough();
}

/// Accepted executions of every size, as they are and a little off.
#[test]
fn every_size() {
    let mut random = Random::new(21);
    for count in 0..=EVENTS {
        for i in 0..80 {
            let edition = EDITIONS[i % EDITIONS.len()];
            let case = generate::full(&mut random, edition, count);
            let record = write::record(&case);
            assert_eq!([PPCW, PPCS].map(|model| compare(&record, model)), [0, 0]);
            let record = write::record(&generate::off(&mut random, case));
            for model in [PPCW, PPCS] {
                compare(&record, model);
                assert_eq!(rows::judge(&record, model), judge(&record, model));
            }
        }
    }
}

/// Executions of every size in which each thread has its own order, and such as break a rule in one
/// thread's order; each verdict comes up in each edition under each model.
#[test]
fn own_orders_and_broken_rules() {
    let mut random = Random::new(22);
    let mut tally = Tally::default();
    let mut add = |case: &Case| {
        let record = write::record(case);
        for model in [PPCW, PPCS] {
            tally.add(heading(case.edition, model), compare(&record, model));
        }
    };
    for i in 0..1_200 {
        let (count, edition) = (2 + i % (EVENTS - 1), EDITIONS[i % EDITIONS.len()]);
        let case = generate::own_orders(&mut random, edition, count);
        add(&case);
        for rule in RULES {
            add(&generate::breaking(&mut random, &case, rule));
        }
    }
    println!("own orders, as they are and broken:\n{tally}");
    for edition in EDITIONS {
        for model in [PPCW, PPCS] {
            tally.assert_each(heading(edition, model), [0].into_iter().chain(RULES), 20);
        }
    }
}

/// The model comes first, whatever the bytes are.
#[test]
fn other_models() {
    for model in [PPCS + 1, 1 << 32, u64::MAX - 1, u64::MAX] {
        for record in [
            &[][..],
            &[9, 9],
            &[1, 1, 1, 0, 0, 0, 0],
            &[2, 1, 1, 0, 0, 0, 0, 0],
        ] {
            assert_eq!(compare(record, model), MODEL);
        }
    }
}

#[test]
fn every_byte_of_a_name() {
    for case in generate::every_byte_of_a_name() {
        let record = write::record(&case);
        let numbers = [PPCW, PPCS, PPCS + 1].map(|model| compare(&record, model));
        assert_eq!(numbers, [case.fault(), case.fault(), MODEL], "{case:?}");
    }
}
