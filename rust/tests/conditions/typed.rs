//! The wrapper's own types say what the library's answers say.

use litmus::{condition, condition_raw, judge, Asked, Case, ConditionAnswer, ConditionRefusal};
use litmus::{Model, Refusal, Verdict};
use ordinary::answer::{GRAMMAR, NESTING, RANGE};
use ordinary::condition::Outcome;
use ordinary::generate::{any_record, any_text};
use ordinary::random::Random;
use ordinary::read;
use ordinary::tally::Tally;

/// What an answer says in the wrapper's types, beside what judging says.
fn expected(answer: ConditionAnswer, judged: Result<Verdict, Refusal>) -> Result<Asked, Refusal> {
    match judged {
        Err(refusal) => Err(refusal),
        Ok(Verdict::Broken { length, rule }) => Ok(Asked::Broken { length, rule }),
        Ok(Verdict::Accepted { length, finals }) if answer.number == 0 => Ok(Asked::Accepted {
            length,
            finals,
            holds: answer.holds == 1,
        }),
        Ok(Verdict::Accepted { .. }) => Err(Refusal {
            number: answer.number,
            place: Some(answer.place as usize),
        }),
    }
}

/// The answer, or the refusal's number and place; and whose it is.
fn plain(asked: Result<Asked, ConditionRefusal>) -> (Result<Asked, Refusal>, &'static str) {
    match asked {
        Ok(asked) => (Ok(asked), "answers"),
        Err(ConditionRefusal::Case(refusal)) => (Err(refusal), "the case's faults"),
        Err(ConditionRefusal::Text(fault)) => {
            let (number, place) = (fault.number, Some(fault.place));
            (Err(Refusal { number, place }), "the text's faults")
        }
    }
}

#[test]
fn typed_answers_are_the_raw_ones() {
    let mut random = Random::new(133);
    let mut times = Tally::default();
    for _ in 0..10_000 {
        let record = any_record(&mut random);
        let reading = read::read(&record);
        let outcome = match &reading {
            Ok(reading) => Outcome::new(&reading.case),
            Err(_) => Outcome {
                finals: vec![0],
                loaded: Vec::new(),
            },
        };
        let text = any_text(&mut random, &outcome);
        let case = Case::read(&record).unwrap_or(Case::empty());
        for model in [Model::PpcW, Model::PpcS] {
            let answer = condition_raw(&record, model as u64, &text);
            let (typed, whose) = plain(condition(&record, model, &text));
            assert_eq!(typed, expected(answer, judge(&record, model)));
            assert_eq!(
                whose == "the text's faults",
                typed.is_err() && reading.is_ok()
            );
            times.add(whose, answer.number);
            let answer = case.condition_raw(model as u64, &text);
            let (typed, _) = plain(case.condition(model, &text));
            assert_eq!(typed, expected(answer, case.judge(model)));
        }
    }
    println!("{times}");
    times.assert_each("the text's faults", [RANGE, GRAMMAR, NESTING], 100);
    times.assert_each("the case's faults", [1, 2, RANGE, 4, 23], 100);
}
