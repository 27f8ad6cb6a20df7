//! Renumbered records: a condition with its addresses moved has the same truth.

use litmus::{condition_raw, renumber, ConditionAnswer};
use ordinary::condition::Outcome;
use ordinary::generate::{any_permutation, any_record, any_text};
use ordinary::judge::{PPCS, PPCW};
use ordinary::permutation::{fits, images, Images};
use ordinary::random::Random;
use ordinary::read;
use ordinary::renumber::moved;
use ordinary::tally::Tally;

/// The text with every address moved. An address has one digit, and other bytes stay.
fn moved_text(text: &[u8], images: Images) -> Vec<u8> {
    let mut new = text.to_vec();
    for at in 1..text.len() {
        let digit = text[at].wrapping_sub(b'0');
        let longer = text.get(at + 1).is_some_and(u8::is_ascii_digit);
        if let (b'm', false, Some(&image)) = (text[at - 1], longer, images.get(usize::from(digit)))
        {
            new[at] = b'0' + image as u8;
        }
    }
    new
}

/// The answer with its finals moved.
fn moved_finals(answer: ConditionAnswer, images: Images) -> ConditionAnswer {
    let finals = moved(&answer.finals, images);
    ConditionAnswer {
        finals: finals.try_into().expect("one for each address"),
        ..answer
    }
}

/// Faulty texts too: their faults stay where they are.
#[test]
fn renumbered_records() {
    let mut random = Random::new(132);
    let mut times = Tally::default();
    while times.times("holds", 1) < 3_000 {
        let record = any_record(&mut random);
        let Ok(reading) = read::read(&record) else {
            continue;
        };
        let case = &reading.case;
        let q = any_permutation(&mut random, case.threads());
        let r = any_permutation(&mut random, case.addresses());
        if !fits(q, case.threads()) || !fits(r, case.addresses()) {
            continue;
        }
        let mut new = vec![0; reading.length];
        assert_eq!(renumber(&record, q, r, &mut new, 0), Ok(new.len()));
        let text = any_text(&mut random, &Outcome::new(case));
        let other = moved_text(&text, images(r));
        for model in [PPCW, PPCS] {
            let answer = condition_raw(&record, model, &text);
            let expected = moved_finals(answer, images(r));
            let found = condition_raw(&new, model, &other);
            assert_eq!(found, expected, "{record:?} by {q} and {r}: {text:?}");
            times.add("numbers", answer.number);
            let heading = if other == text { "unmoved" } else { "holds" };
            if answer.number == 0 {
                times.add(heading, answer.holds);
            }
        }
    }
    println!("{times}");
    times.assert_each("numbers", [3, 21, 22], 100);
    times.assert_each("holds", [0, 1], 1_000);
}
