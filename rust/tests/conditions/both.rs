//! Conditions asked of the library and of the other implementation.

use crate::built::built;
use crate::raw::raw;
use litmus::Case;
use ordinary::answer::{MODEL, OF_READING};
use ordinary::condition::{asked, parse, Asked, Outcome, Why};
use ordinary::judge::{judge, PPCS, PPCW, RULES};
use ordinary::limits::EDITIONS;
use ordinary::tally::{heading, stated_edition, Tally};
use ordinary::{read, rows, Answer};
use std::fmt;

/// A record under a model, and what the other implementation says of it.
pub struct Subject {
    record: Vec<u8>,
    model: u64,
    judged: Answer,
    /// Of the record, or if it can't be read, of some case.
    pub outcome: Outcome,
    /// The record's case, if it can be read.
    case: Option<Case>,
}

impl Subject {
    pub fn new(record: &[u8], model: u64) -> Subject {
        let reading = read::read(record).ok();
        let mut outcome = Outcome {
            finals: vec![0, 1],
            loaded: vec![Some(1), None],
        };
        if let Some(reading) = &reading {
            outcome = Outcome::new(&reading.case);
        }
        Subject {
            record: record.to_vec(),
            model,
            judged: judge(record, model),
            outcome,
            case: reading.map(|reading| built(&reading.case)),
        }
    }

    pub fn is_accepted(&self) -> bool {
        self.judged.number == 0
    }

    /// Asks both of the record and of its case, compares the answers, and hands back the one.
    pub fn compare(&self, text: &[u8]) -> Asked {
        let expected = asked(self.judged, || self.outcome.clone(), text);
        let Subject { record, model, .. } = self;
        let context = || format!("{} of {record:?} under {model}", text.escape_ascii());
        let answer = litmus::condition_raw(record, *model, text);
        assert_eq!(answer, raw(expected), "{}", context());
        assert_eq!(rows::ask(record, *model, text), expected, "{}", context());
        if let Some(case) = &self.case {
            let answer = case.condition_raw(*model, text);
            assert_eq!(answer, raw(expected), "the case, {}", context());
        }
        expected
    }
}

/// How often each answer came up.
#[derive(Default)]
pub struct Times {
    /// The numbers of records that are not accepted, by edition and model.
    refused: Tally,
    /// Why texts are refused.
    faults: Tally,
    /// Conditions that do not hold, 0, or do, 1, by edition and model.
    truths: Tally,
}

/// The heading of why texts are refused, and of all truths.
const ALL: &str = "all";

impl Times {
    /// Compares both, and counts the answer.
    pub fn add(&mut self, subject: &Subject, text: &[u8]) {
        let asked = subject.compare(text);
        let heading = heading(stated_edition(&subject.record), subject.model);
        if !subject.is_accepted() {
            return self.refused.add(heading, asked.answer.number);
        }
        match parse(text, &subject.outcome) {
            Ok(_) => {
                self.truths.add(heading, asked.holds.into());
                self.truths.add(ALL, asked.holds.into());
            }
            Err(fault) => self.faults.add(ALL, fault.why as u32),
        }
    }

    /// Fails where a condition held, or did not, less than `least` times.
    pub fn assert_truths(&self, least: usize) {
        self.truths.assert_each(ALL, [0, 1], least);
    }

    /// Fails where a text was refused for one of these reasons less than `least` times.
    pub fn assert_faults(&self, why: &[Why], least: usize) {
        let numbers = why.iter().map(|&why| why as u32);
        self.faults.assert_each(ALL, numbers, least);
    }

    /// Fails where an answer came up less than `least` times.
    pub fn assert_each(&self, least: usize) {
        self.assert_faults(&Why::ALL, least);
        for edition in EDITIONS {
            for model in [PPCW, PPCS] {
                let heading = heading(edition, model);
                self.truths.assert_each(heading, [0, 1], least);
                let numbers = OF_READING.into_iter().skip(1).chain(RULES);
                self.refused.assert_each(heading, numbers, least);
            }
        }
        let other = heading(0, PPCS + 1);
        self.refused.assert_each(other, [MODEL], least);
    }
}

impl fmt::Display for Times {
    fn fmt(&self, f: &mut fmt::Formatter) -> fmt::Result {
        write!(f, "records refused or not accepted\n{}", self.refused)?;
        write!(
            f,
            "conditions that do not hold, 0, or do, 1\n{}",
            self.truths
        )?;
        f.write_str("texts refused:")?;
        for why in Why::ALL {
            write!(f, "  {why:?} x {}", self.faults.times(ALL, why as u32))?;
        }
        Ok(())
    }
}
