//! Conditions: answers agree with an ordinary reader and evaluator, on records and on cases.

#[path = "conditions/both.rs"]
mod both;
#[path = "../src/bin/record/built.rs"]
mod built;
#[path = "conditions/moved.rs"]
mod moved;
#[path = "common/raw.rs"]
mod raw;
#[path = "conditions/typed.rs"]
mod typed;
#[path = "conditions/words.rs"]
mod words;

use both::{Subject, Times};
use ordinary::condition::Why;
use ordinary::generate::{any_record, any_text, text_of_length};
use ordinary::judge::{PPCS, PPCW};
use ordinary::limits::{DEPTH, TEXT};
use ordinary::random::Random;

const RECORDS: usize = 30_000;
/// How many texts an accepted record is asked.
const TEXTS: usize = 16;

const DEKKER: &[u8] = include_bytes!("../../examples/dekker.litmus");
const SMALL: &[u8] = include_bytes!("../../examples/small.litmus");

/// Any records under any models, and any texts.
#[test]
fn any_texts() {
    let mut random = Random::new(130);
    let mut times = Times::default();
    for _ in 0..RECORDS {
        let record = any_record(&mut random);
        for model in [PPCW, PPCS, random.any_number()] {
            let subject = Subject::new(&record, model);
            let count = if subject.is_accepted() { TEXTS } else { 1 };
            for _ in 0..count {
                let text = any_text(&mut random, &subject.outcome);
                times.add(&subject, &text);
            }
        }
    }
    println!("{RECORDS} records:\n{times}");
    times.assert_each(100);
}

/// Every sequence of these parts, up to so many.
#[test]
fn every_short_text() {
    let mut times = Times::default();
    let subject = Subject::new(SMALL, PPCS);
    let factors = ["m0=1", "e1=0", "~", "(", ")", "/\\", "\\/"];
    let tokens = ["m0", "m1", "e0", "e1", "=", "0", "1", "~", "(", ")"];
    let bytes = [" ", "(", ")", "~", "/", "\\", "=", "m", "e", "0", "1", "x"];
    for (most, parts) in [(7, &factors[..]), (5, &tokens), (4, &bytes)] {
        let take = &mut |text: &str| times.add(&subject, text.as_bytes());
        every_sequence(&mut String::new(), parts, most, take);
    }
    println!("{times}");
    times.assert_truths(500);
}

/// Hands over the text, and behind it every sequence of up to so many of the parts.
fn every_sequence(text: &mut String, parts: &[&str], most: usize, take: &mut impl FnMut(&str)) {
    take(text);
    if most == 0 {
        return;
    }
    let length = text.len();
    for part in parts {
        text.push_str(part);
        every_sequence(text, parts, most - 1, take);
        text.truncate(length);
    }
}

const TEXT_OF_ALL: &[u8] = br" m0=1 /\ ~( e2 = 0\/m1=3 ) \/ ~~e5=10 ";

/// A text of every production, with each byte exchanged for each other one, with each one more, with
/// one less, and cut at every place.
#[test]
fn one_byte_off() {
    let mut times = Times::default();
    let subject = Subject::new(DEKKER, PPCW);
    for at in 0..=TEXT_OF_ALL.len() {
        let (front, back) = TEXT_OF_ALL.split_at(at);
        times.add(&subject, front);
        let rest = back.get(1..).unwrap_or_default();
        times.add(&subject, &[front, rest].concat());
        for byte in 0..=u8::MAX {
            times.add(&subject, &[front, &[byte], rest].concat());
            times.add(&subject, &[front, &[byte], back].concat());
        }
    }
    println!("{times}");
    times.assert_truths(10);
}

/// Every mixture of `~` and brackets, up to as many as may be nested, and a third of those of one and
/// two more.
#[test]
fn every_nesting() {
    let mut times = Times::default();
    let subject = Subject::new(SMALL, PPCS);
    for depth in DEPTH - 1..=DEPTH + 2 {
        for mixture in (0..1u32 << depth).step_by(if depth > DEPTH { 3 } else { 1 }) {
            let sign = |i| if mixture >> i & 1 == 1 { '~' } else { '(' };
            let front: String = (0..depth).map(sign).collect();
            let back = ")".repeat(front.matches('(').count());
            times.add(&subject, format!("{front}e1=1{back}").as_bytes());
        }
    }
    println!("{times}");
    times.assert_truths(10_000);
    times.assert_faults(&[Why::DeepNegation, Why::DeepBracket], 10_000);
}

/// Texts around the greatest length, whatever they hold.
#[test]
fn every_length() {
    let mut random = Random::new(131);
    let mut times = Times::default();
    for (record, model) in [(SMALL, PPCS), (DEKKER, PPCW)] {
        let subject = Subject::new(record, model);
        for length in 480..TEXT + 40 {
            for _ in 0..8 {
                let text = text_of_length(&mut random, &subject.outcome, length);
                times.add(&subject, &text);
            }
            for byte in [b' ', b'(', b'~', b'm', b'0', 0, 0xFF] {
                times.add(&subject, &vec![byte; length]);
            }
        }
        times.add(&subject, &vec![b' '; 1 << 20]);
    }
    println!("{times}");
    times.assert_truths(50);
    times.assert_faults(&[Why::TooLong], 500);
}
