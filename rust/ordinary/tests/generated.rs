//! The quick implementation against the plain one, and what the generators promise.

use ordinary::answer::{Refusal, MISPLACED, OF_READING, ROOM, UNPRINTABLE};
use ordinary::generate::{self, Duty};
use ordinary::judge::{judge, judge_case, verdict, PPCS, PPCW, RULES};
use ordinary::judge::{verdict_with_syncs, verdict_without_dependencies};
use ordinary::limits::{most_bytes, EDITIONS, EVENTS, FIRST, GROUPS, SECOND};
use ordinary::random::Random;
use ordinary::tally::{edition_name, heading, model_name, Tally};
use ordinary::{permutation, read, renumber, representative, rows, write, Case};

const MODELS: [u64; 2] = [PPCW, PPCS];

#[test]
fn rows_agree_with_pairs() {
    let mut random = Random::new(1);
    let mut tally = Tally::default();
    for _ in 0..40_000 {
        let record = generate::any_record(&mut random);
        for model in MODELS.into_iter().chain([random.any_number()]) {
            let answer = judge(&record, model);
            let quick = rows::judge(&record, model);
            assert_eq!(quick, answer, "{record:?} under {model}");
            tally.add_judged(&record, model, answer.number);
        }
    }
    println!("{tally}");
    tally.assert_judged(100);
}

/// Cases in which each thread has its own order are accepted, and such as break a rule come up for
/// every rule.
#[test]
fn own_orders_and_broken_rules() {
    let mut random = Random::new(11);
    let mut tally = Tally::default();
    let mut apart = 0;
    for i in 0..320 {
        let (count, edition) = (2 + i % (EVENTS - 1), EDITIONS[i % EDITIONS.len()]);
        let case = generate::own_orders(&mut random, edition, count);
        apart += usize::from(case.orders[0] != case.orders[1]);
        tally_both(&mut tally, &case);
        assert_eq!(verdict(&case, PPCS), 0, "{case:?}");
        for rule in RULES {
            let broken = generate::breaking(&mut random, &case, rule);
            tally_both(&mut tally, &broken);
        }
    }
    println!("{tally}");
    assert!(apart >= 280, "orders differ in {apart} cases");
    for edition in EDITIONS {
        for model in MODELS {
            tally.assert_each(heading(edition, model), [0].into_iter().chain(RULES), 10);
        }
    }
}

/// Counts the case's verdicts, on which both implementations have to agree.
fn tally_both(tally: &mut Tally, case: &Case) {
    let record = write::record(case);
    for model in MODELS {
        let answer = judge(&record, model);
        assert_eq!(rows::judge(&record, model), answer, "{case:?}");
        tally.add(heading(case.edition, model), answer.number);
    }
}

/// Names of generated cases have every printable byte and no other. Those of damaged records have
/// every kind of other byte, at the front, inside and at the end.
#[test]
fn generated_names() {
    let mut random = Random::new(9);
    let (mut good, mut bad) = (Tally::default(), Tally::default());
    for _ in 0..20_000 {
        let case = generate::any_case(&mut random);
        for &byte in &case.name {
            good.add("printable", byte.into());
        }
        let bytes = generate::damaged(&mut random, &case);
        if let Err(Refusal {
            number: UNPRINTABLE,
            place,
        }) = read::read(&bytes)
        {
            let kind = match bytes[place] {
                0..=31 => 0,
                127 => 1,
                128..=254 => 2,
                _ => 3,
            };
            bad.add(part_of_name(&bytes, place), kind);
        }
    }
    println!("{bad}");
    good.assert_each("printable", 32..=126, 200);
    let mut others = (0..=31).chain(127..=255);
    assert!(others.all(|byte| good.times("printable", byte) == 0));
    for part in ["front", "inside", "end"] {
        bad.assert_each(part, 0..=3, 50);
    }
}

/// In which part of the name of these bytes, which is not printable, a place lies.
fn part_of_name(bytes: &[u8], place: usize) -> &'static str {
    let record = generate::printable(bytes);
    let end = read::answer(&record).length;
    let start = end - read::name(&record).len();
    if place == start {
        "front"
    } else if place + 1 == end {
        "end"
    } else {
        "inside"
    }
}

/// Every way in which a dependency may be unfit comes up, and is refused with 4.
#[test]
fn dependencies_are_refused() {
    let mut random = Random::new(6);
    let mut tally = Tally::default();
    for _ in 0..20_000 {
        let case = generate::any_case(&mut random);
        let bytes = generate::damaged(&mut random, &case);
        tally.add_unfit(&bytes);
        if read::unfit_dependency(&bytes).is_some() {
            assert_eq!(read::answer(&bytes).number, MISPLACED, "{bytes:?}");
            assert_eq!(rows::read(&bytes).err(), read::read(&bytes).err());
        }
    }
    println!("{tally}");
    tally.assert_unfit(100);
}

/// Cases come up whose verdict would be another one if lwsyncs were syncs, or without dependencies.
/// A sync in an lwsync's place can break 17 and 18 alone, and a dependency 13 alone.
#[test]
fn lwsyncs_and_dependencies_matter() {
    let mut random = Random::new(7);
    let (mut syncs, mut none) = (Tally::default(), Tally::default());
    for _ in 0..20_000 {
        let case = generate::any_case(&mut random);
        for model in MODELS {
            let number = verdict(&case, model);
            let with_syncs = verdict_with_syncs(&case, model);
            if with_syncs != number {
                assert_eq!(case.edition, SECOND);
                assert!((17..=18).contains(&with_syncs), "{case:?}");
                syncs.add(model_name(model), with_syncs);
            }
            if verdict_without_dependencies(&case, model) != number {
                assert_eq!((case.edition, number), (SECOND, 13), "{case:?}");
                none.add(model_name(model), number);
            }
        }
    }
    println!("with syncs for lwsyncs, another verdict:\n{syncs}");
    println!("a verdict that dependencies make:\n{none}");
    for model in MODELS {
        syncs.assert_each(model_name(model), 17..=18, 20);
        none.assert_each(model_name(model), [13], 20);
    }
}

#[test]
fn accepted_cases_are_accepted() {
    let mut random = Random::new(2);
    for i in 0..3_000 {
        let case = match i % 3 {
            0 => {
                let edition = random.pick(&EDITIONS);
                generate::full(&mut random, edition, i % (EVENTS + 1))
            }
            1 => generate::sequential(&mut random),
            _ => generate::sparse(&mut random, None),
        };
        assert_eq!(
            MODELS.map(|model| verdict(&case, model)),
            [0, 0],
            "{case:?}"
        );
    }
}

#[test]
fn a_duty_left_out_breaks_its_rules() {
    let rules = [11..=11, 12..=12, 15..=16, 17..=17, 18..=18];
    let mut random = Random::new(3);
    for (duty, rules) in Duty::ALL.into_iter().zip(rules) {
        for edition in EDITIONS {
            let mut cases = (0..4_000).map(|_| generate::sparse(&mut random, Some(duty)));
            let breaks = |case: Case| rules.contains(&verdict(&case, PPCS));
            let broken = cases.any(|case| case.edition == edition && breaks(case));
            assert!(broken, "{rules:?} in edition {edition}");
        }
    }
}

#[test]
fn values_of_every_width() {
    let mut random = Random::new(8);
    let mut counts = [0; GROUPS];
    for _ in 0..10_000 {
        let case = generate::any_case(&mut random);
        let stored = case.events.iter().map(|event| event.value);
        for value in case.initial.iter().copied().chain(stored) {
            counts[write::number(value.into()).len() - 1] += 1;
        }
    }
    println!("values of each number of groups: {counts:?}");
    assert!(counts.iter().all(|&count| count > 200));
}

#[test]
fn cases_survive_writing_and_reading() {
    let mut random = Random::new(4);
    for _ in 0..5_000 {
        let case = generate::any_case(&mut random);
        let record = write::record(&case);
        assert!(record.len() <= most_bytes(case.edition));
        assert_eq!(case.fault(), 0);
        let behind = random.bytes(3);
        let reading = read::read(&[&record[..], &behind].concat()).expect("readable");
        assert_eq!((reading.case, reading.length), (case.clone(), record.len()));
        assert_eq!(read::name(&record), case.name);
        for model in MODELS {
            assert_eq!(judge_case(&case, model), judge(&record, model));
        }
    }
}

#[test]
fn renumbering_back_gives_the_same_bytes() {
    let mut random = Random::new(5);
    let mut tally = Tally::default();
    for _ in 0..5_000 {
        let case = generate::any_case(&mut random);
        let [q, r] = [0; 2].map(|_| random.below(permutation::COUNT as usize) as u64);
        let fits = permutation::fits(q, case.threads()) && permutation::fits(r, case.addresses());
        let there = renumber::renumber_case(&case, q, r);
        assert_eq!(there.is_ok(), fits);
        if let Ok(there) = there {
            assert_eq!(there.dependencies, case.dependencies);
            tally.add(edition_name(case.edition), u32::from(there != case));
            let (q, r) = (permutation::inverse(q), permutation::inverse(r));
            assert_eq!(renumber::renumber_case(&there, q, r), Ok(case));
        }
    }
    for edition in EDITIONS {
        tally.assert_each(edition_name(edition), [1], 100);
    }
}

/// Sorting a record's parts gives the least of all its renumberings, whatever buffer it goes to.
#[test]
fn sorted_parts_are_the_least_renumbering() {
    let mut random = Random::new(10);
    let mut tally = Tally::default();
    for i in 0..4_000 {
        let record = match i % 4 {
            0 => generate::any_record(&mut random),
            _ => write::record(&generate::tied(&mut random)),
        };
        let (mut out, at) = generate::any_buffer(&mut random, record.len());
        let mut quick = out.clone();
        let answer = representative::representative(&record, &mut out, at as usize);
        let quickly = rows::representative(&record, &mut quick, at as usize);
        assert_eq!((quickly, &quick), (answer, &out), "{record:?} from {at}");
        tally.add("representatives", answer.number);
    }
    println!("{tally}");
    tally.assert_each("representatives", OF_READING, 10);
    tally.assert_each("representatives", [ROOM], 100);
}

/// In the first edition dependencies are spare room: nothing asks for them.
#[test]
fn the_first_edition_has_no_dependencies() {
    let mut random = Random::new(8);
    let mut spare = 0;
    for _ in 0..5_000 {
        let case = generate::any_case(&mut random);
        if case.has_lwsync() {
            continue;
        }
        let first = Case {
            edition: FIRST,
            ..case.clone()
        };
        let bare = Case {
            dependencies: Vec::new(),
            ..first.clone()
        };
        assert_eq!(first.fault(), 0);
        assert_eq!(write::record(&first), write::record(&bare));
        for model in MODELS {
            assert_eq!(judge_case(&first, model), judge_case(&bare, model));
        }
        spare += usize::from(!case.dependencies.is_empty());
    }
    assert!(spare >= 100, "{spare}");
}
