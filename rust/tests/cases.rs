//! The calls on cases: answers, buffers and whole cases agree with the other implementation,
//! whatever numbers stand in a case.

#[path = "../src/bin/record/built.rs"]
mod built;
#[path = "cases/change.rs"]
mod change;
mod common;
#[path = "cases/handed.rs"]
mod handed;
#[path = "cases/in_turn.rs"]
mod in_turn;
#[path = "common/raw.rs"]
mod raw;

use built::built;
use change::{change, fill_spare_room};
use common::plain;
use handed::Handed;
use litmus::{Case, CaseAnswer};
use ordinary::answer::{GRAMMAR, MISPLACED, MODEL, NESTING, OF_READING, PERMUTATION, RANGE};
use ordinary::answer::{ROOM, UNPRINTABLE};
use ordinary::condition::asked;
use ordinary::generate::{self, any_buffer, any_permutation, any_text};
use ordinary::judge::{PPCS, PPCW, RULES};
use ordinary::limits::{ADDRESSES, EDITIONS, FIRST, SECOND, THREADS};
use ordinary::permutation::COUNT;
use ordinary::random::Random;
use ordinary::tally::{edition_name, stated_edition, Tally};
use ordinary::{read, Answer};
use raw::raw;

const INPUTS: usize = 50_000;
/// The most events of a case that the other implementation is asked for the representative of.
const FEW_EVENTS: usize = 24;
/// The heading of conditions on accepted cases.
const TEXTS: &str = "conditions on accepted cases";
/// The heading of representatives that are the case itself, 0, or another one, 1.
const MOVED: &str = "representatives that are another case";

/// Hands cases to every call, and counts what they answer.
struct Calls {
    random: Random,
    tally: Tally,
}

impl Calls {
    fn new(seed: u64) -> Calls {
        Calls {
            random: Random::new(seed),
            tally: Tally::default(),
        }
    }

    /// Compares all that the calls give, and hands back the case's fault.
    fn compare(&mut self, case: &Case) -> u32 {
        let handed = Handed::new(case);
        self.judge(case, &handed);
        self.write(case, &handed);
        self.renumber(case, &handed);
        self.representative(case, &handed);
        self.tally.add_unfit(&handed.bytes);
        handed.fault()
    }

    fn judge(&mut self, case: &Case, handed: &Handed) {
        let [heading, ..] = headings(case.edition);
        for model in [PPCW, PPCS, PPCS + 1, u64::MAX] {
            let answer = plain(case.judge_raw(model));
            assert_eq!(answer, handed.judge(model), "{case:?} under {model}");
            self.tally.add(heading, answer.number);
            self.ask(case, handed, model, answer);
        }
    }

    /// A condition, or a text near to one, of a case that is judged so.
    fn ask(&mut self, case: &Case, handed: &Handed, model: u64, judged: Answer) {
        let [_, heading, ..] = headings(case.edition);
        let outcome = handed.outcome();
        let text = any_text(&mut self.random, &outcome);
        let answer = case.condition_raw(model, &text);
        let expected = raw(asked(judged, || outcome, &text));
        assert_eq!(answer, expected, "{case:?} under {model}: {text:?}");
        match judged.number {
            0 => self.tally.add(TEXTS, answer.number),
            number => self.tally.add(heading, number),
        }
    }

    /// With just enough room and a byte too few, at the front, further on and past the end, and into
    /// any buffer.
    fn write(&mut self, case: &Case, handed: &Handed) {
        let [_, _, heading, ..] = headings(case.edition);
        let length = handed.bytes.len();
        let buffers = [
            (length, 0),
            (length - 1, 0),
            (length + 3, 3),
            (length + 3, 4),
            (length + 3, u64::MAX),
            (0, 0),
            (2, 3),
        ];
        let mut buffers = buffers.map(|(room, at)| (vec![9; room], at)).to_vec();
        buffers.push(any_buffer(&mut self.random, length));
        for (buffer, at) in buffers {
            let (mut out, mut expected) = (buffer.clone(), buffer);
            let answer = handed.write(&mut expected, at);
            let found = plain(case.write_raw(&mut out, at));
            assert_eq!(found, answer, "{case:?} from {at}");
            assert!(out == expected, "{case:?} from {at}: {out:?}");
            self.tally.add(heading, answer.number);
        }
    }

    fn renumber(&mut self, case: &Case, handed: &Handed) {
        let [.., heading, _] = headings(case.edition);
        let random = &mut self.random;
        let any = [(); 3].map(|()| {
            let q = any_permutation(random, case.threads.min(THREADS));
            let r = any_permutation(random, case.addresses.min(ADDRESSES));
            (q, r)
        });
        for (q, r) in any.into_iter().chain([(0, 0), (COUNT, u64::MAX)]) {
            let (expected, renumbered) = handed.renumber(q, r);
            let CaseAnswer { answer, case: new } = case.renumber_raw(q, r);
            assert_eq!(plain(answer), expected, "{case:?} by {q} and {r}");
            assert!(new == renumbered, "{case:?} by {q} and {r}: {new:?}");
            self.tally.add(heading, answer.number);
        }
    }

    /// Of every case that is refused. The other implementation takes long for the rest: of few, and
    /// of none with many events.
    fn representative(&mut self, case: &Case, handed: &Handed) {
        if handed.fault() == 0 && (case.events > FEW_EVENTS || !self.random.once_in(32)) {
            return;
        }
        let [.., heading] = headings(case.edition);
        let (expected, least) = handed.representative();
        let CaseAnswer { answer, case: new } = case.representative_raw();
        assert_eq!(plain(answer), expected, "{case:?}");
        assert!(new == least, "{case:?}: {new:?}");
        self.tally.add(heading, answer.number);
        if answer.number == 0 {
            let moved = new.record().as_ref() != Ok(&handed.bytes);
            self.tally.add(MOVED, u32::from(moved));
        }
    }
}

/// Of judging, conditions, writing, renumbering and representatives.
fn headings(edition: u64) -> [&'static str; 5] {
    match u32::try_from(edition) {
        Ok(FIRST) => [
            "judging edition 1",
            "conditions on edition 1",
            "writing edition 1",
            "renumbering edition 1",
            "representatives of edition 1",
        ],
        Ok(SECOND) => [
            "judging edition 2",
            "conditions on edition 2",
            "writing edition 2",
            "renumbering edition 2",
            "representatives of edition 2",
        ],
        _ => [
            "judging no edition",
            "conditions on no edition",
            "writing no edition",
            "renumbering no edition",
            "representatives of no edition",
        ],
    }
}

/// Cases with anything in their spare room, and with up to two changes.
#[test]
fn any_numbers() {
    let mut calls = Calls::new(70);
    for _ in 0..INPUTS {
        let mut case = built(&generate::any_case(&mut calls.random));
        fill_spare_room(&mut calls.random, &mut case);
        assert_eq!(calls.compare(&case), 0, "{case:?}");
        for _ in 0..calls.random.below(3) {
            change(&mut calls.random, &mut case);
            calls.compare(&case);
        }
    }
    let tally = &calls.tally;
    println!("{INPUTS} cases and what they were changed to:\n{tally}");
    for edition in EDITIONS {
        let [judging, asking, writing, renumbering, representatives] = headings(edition.into());
        for heading in [judging, writing, renumbering] {
            tally.assert_each(heading, [0, RANGE, MISPLACED, UNPRINTABLE], 1_000);
        }
        tally.assert_each(asking, [RANGE, MISPLACED, UNPRINTABLE], 1_000);
        tally.assert_each(asking, RULES.chain([MODEL]), 400);
        tally.assert_each(representatives, [0, RANGE, MISPLACED, UNPRINTABLE], 400);
        tally.assert_each(judging, RULES.chain([MODEL]), 400);
        tally.assert_each(writing, [ROOM], 1_000);
        tally.assert_each(renumbering, [PERMUTATION], 1_000);
    }
    tally.assert_each(MOVED, [0, 1], 400);
    tally.assert_each(TEXTS, [0, RANGE, GRAMMAR, NESTING], 1_000);
    for heading in headings(0) {
        tally.assert_each(heading, [RANGE], 1_000);
    }
    tally.assert_unfit(100);
}

/// Every field outside its range in turn, dependencies out of turn, and entries of write orders that
/// may not stand there: of cases of both editions, and of the greatest.
#[test]
fn each_field_in_turn() {
    let mut calls = Calls::new(71);
    for edition in EDITIONS {
        for case in base_cases(&mut calls.random, edition) {
            in_turn(&mut calls, &case);
        }
    }
    println!("one field after another:\n{}", calls.tally);
}

/// With two dependencies at least in the second edition, two stores to some address and a name.
fn base_cases(random: &mut Random, edition: u32) -> [Case; 2] {
    let good = |case: &ordinary::Case| {
        let enough = edition == FIRST || case.dependencies().len() > 1;
        enough && case.write_orders.iter().any(|listed| listed.len() > 1)
    };
    let mut full = generate::full(random, edition, 16);
    while !good(&full) {
        full = generate::full(random, edition, 16);
    }
    full.name = b"name".to_vec();
    [full, generate::greatest(edition)].map(|case| {
        let mut case = built(&case);
        fill_spare_room(random, &mut case);
        case
    })
}

fn in_turn(calls: &mut Calls, case: &Case) {
    let second = case.edition == u64::from(SECOND);
    let mut changes = vec![
        (in_turn::counts_out_of_range(case), RANGE),
        (
            in_turn::many_dependencies(case),
            if second { RANGE } else { 0 },
        ),
        (in_turn::events_out_of_range(case), RANGE),
        (in_turn::entries_out_of_range(case), RANGE),
        (in_turn::entries_out_of_place(case), MISPLACED),
        (in_turn::unprintable_names(case), UNPRINTABLE),
    ];
    if second {
        changes.push((in_turn::dependencies_out_of_range(case), RANGE));
        changes.push((in_turn::dependencies_out_of_turn(case), MISPLACED));
    }
    for (changed, number) in changes {
        assert!(!changed.is_empty());
        for case in changed {
            assert_eq!(calls.compare(&case), number, "{case:?}");
        }
    }
}

/// The case of a record, every field of it, and nothing of a record that is refused.
#[test]
fn reading() {
    let mut random = Random::new(72);
    let mut tally = Tally::default();
    for _ in 0..INPUTS {
        let record = generate::any_record(&mut random);
        let CaseAnswer { answer, case } = Case::read_raw(&record);
        assert_eq!(plain(answer), read::answer(&record), "{record:?}");
        let expected = match read::read(&record) {
            Ok(reading) => built(&reading.case),
            Err(_) => Case::empty(),
        };
        assert!(case == expected, "{record:?}: {case:?}");
        tally.add(edition_name(stated_edition(&record)), answer.number);
    }
    println!("{INPUTS} records read as cases:\n{tally}");
    for edition in EDITIONS {
        tally.assert_each(edition_name(edition), OF_READING, 100);
    }
}
