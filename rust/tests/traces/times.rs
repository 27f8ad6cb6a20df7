//! Traces judged by the library and by the other implementation, and how often each answer came up.

use crate::answers::raw;
use crate::readings::raw_reading;
use litmus::{read_trace_raw, trace_raw};
use ordinary::answer::{DISABLED, ENDS, FORM, RANGE};
use ordinary::limits::STEPS;
use ordinary::storage::{judge_trace, part_at, read_trace, Answer, Part, Reading, Step};
use ordinary::tally::Tally;
use std::fmt;

/// The headings of kinds of steps, from the first on.
const KINDS: [&str; Step::KINDS] = [
    "accept a write",
    "accept a barrier",
    "propagate a write",
    "propagate a barrier",
    "commit",
    "read response",
    "acknowledge",
];
/// Numbers that are refused elsewhere than in the fields of a step.
const HEAD: &str = "before the steps";
const KIND: &str = "a step's kind";
/// By kind, 1 or 2.
const TOO_MANY: &str = "a write or a barrier too many";
/// Commits that fail their third condition: 0 of two writes, 1 of one.
const CYCLES: &str = "cycles";

/// The heading where there is but one.
const ALL: &str = "all";

fn heading(kind: usize) -> &'static str {
    KINDS[kind - 1]
}

/// Judges and reads with both, compares all that they answer, and hands back the answer.
pub fn compare(bytes: &[u8]) -> Answer {
    let answer = judge_trace(bytes);
    assert_eq!(trace_raw(bytes), raw(&answer), "{bytes:?}");
    let reading = raw_reading(read_trace(bytes));
    assert_eq!(read_trace_raw(bytes), reading, "{bytes:?}");
    answer
}

#[derive(Default)]
pub struct Times {
    /// By the kind of an accepted trace's last step, of the step that is not enabled, or of the one that
    /// a refused number is a field of.
    numbers: Tally,
    /// By the kind of the step that is not enabled, which condition failed first.
    conditions: Tally,
    /// By kind, the steps of accepted traces.
    taken: Tally,
    others: Tally,
    /// By how many steps accepted traces have, and by the place of the step that is not enabled.
    accepted: Tally,
    disabled: Tally,
}

impl Times {
    /// Compares both, counts the answer and hands it back.
    pub fn add(&mut self, bytes: &[u8]) -> Answer {
        let answer = compare(bytes);
        match read_trace(bytes) {
            Ok(Reading { trace, .. }) if answer.number == 0 => self.add_accepted(&trace.steps),
            Ok(Reading { trace, .. }) => self.add_disabled(trace.steps[answer.step], &answer),
            Err(refusal) => self.add_refused(bytes, refusal.place, refusal.number),
        }
        answer
    }

    fn add_accepted(&mut self, steps: &[Step]) {
        self.accepted.add(ALL, steps.len() as u32);
        if let Some(last) = steps.last() {
            self.numbers.add(heading(last.kind()), 0);
        }
        for step in steps {
            self.taken.add(ALL, step.kind() as u32);
        }
    }

    fn add_disabled(&mut self, step: Step, answer: &Answer) {
        self.disabled.add(ALL, answer.step as u32);
        self.numbers.add(heading(step.kind()), answer.number);
        self.conditions.add(heading(step.kind()), answer.condition);
        match step {
            Step::Commit { first, second } if answer.condition == 3 => {
                self.others.add(CYCLES, (first == second).into());
            }
            _ => {}
        }
    }

    fn add_refused(&mut self, bytes: &[u8], place: usize, number: u32) {
        match part_at(bytes, place) {
            Part::Head => self.numbers.add(HEAD, number),
            Part::Field(kind) => self.numbers.add(heading(kind), number),
            Part::Kind if number == RANGE && [1, 2].contains(&bytes[place]) => {
                self.others.add(TOO_MANY, bytes[place].into());
            }
            Part::Kind => self.numbers.add(KIND, number),
        }
    }

    /// Fails where an answer came up less than `least` times.
    pub fn assert_each(&self, least: usize) {
        for (kind, heading) in (1..).zip(KINDS) {
            self.numbers.assert_each(heading, [0], least);
            let conditions = 1..=Step::conditions(kind) as u32;
            self.conditions.assert_each(heading, conditions, least);
        }
        self.assert_refused(least);
        self.taken.assert_each(ALL, 1..=Step::KINDS as u32, least);
        self.others.assert_each(CYCLES, [0, 1], least);
        self.others.assert_each(TOO_MANY, [1, 2], least);
    }

    /// Fails where numbers were refused less than `least` times somewhere.
    pub fn assert_refused(&self, least: usize) {
        for heading in KINDS.into_iter().chain([HEAD, KIND]) {
            self.numbers
                .assert_each(heading, [ENDS, FORM, RANGE], least);
        }
    }

    /// Fails where less than `least` traces of some length were accepted, or less than `least` refused
    /// for some step.
    pub fn assert_lengths(&self, least: usize) {
        let steps = STEPS as u32;
        self.accepted.assert_each(ALL, 0..=steps, least);
        self.disabled.assert_each(ALL, 0..steps, least);
    }

    /// How many traces had an answer.
    pub fn numbers(&self, number: u32) -> usize {
        let headings = KINDS.into_iter().chain([HEAD, KIND]);
        headings
            .map(|heading| self.numbers.times(heading, number))
            .sum()
    }
}

impl fmt::Display for Times {
    fn fmt(&self, f: &mut fmt::Formatter) -> fmt::Result {
        write!(f, "numbers\n{}", self.numbers)?;
        write!(f, "conditions under {DISABLED}\n{}", self.conditions)?;
        write!(f, "steps of accepted traces by kind\n{}", self.taken)?;
        write!(f, "{}", self.others)
    }
}
