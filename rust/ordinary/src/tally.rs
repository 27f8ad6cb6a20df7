//! How often each number came up.

use crate::answer::{OF_READING, UNPRINTABLE};
use crate::case::Unfit;
use crate::generate::printable;
use crate::judge::{judge, PPCS, PPCW, RULES};
use crate::limits::{EDITIONS, FIRST, SECOND};
use crate::log::log;
use crate::read;
use std::collections::BTreeMap;
use std::fmt;

/// The heading of refused dependencies, by why they may not stand where they do.
const UNFIT: &str = "unfit dependencies";

/// Counts under a heading each, as a model's name.
#[derive(Default)]
pub struct Tally {
    times: BTreeMap<&'static str, BTreeMap<u32, usize>>,
}

impl Tally {
    pub fn add(&mut self, heading: &'static str, number: u32) {
        let row = self.times.entry(heading).or_default();
        *row.entry(number).or_default() += 1;
    }

    /// Counts the dependency that the bytes are refused for with 4, if there is one.
    pub fn add_unfit(&mut self, bytes: &[u8]) {
        if let Some(why) = read::unfit_dependency(bytes) {
            self.add(UNFIT, why as u32);
        }
    }

    /// Counts what judging the bytes gives, and if that is for their name, what it would give for a
    /// printable one.
    pub fn add_judged(&mut self, bytes: &[u8], model: u64, number: u32) {
        let edition = stated_edition(bytes);
        self.add(heading(edition, model), number);
        if number == UNPRINTABLE {
            let behind = judge(&printable(bytes), model).number;
            self.add(behind_the_name(edition), behind);
        }
    }

    /// Counts the verdicts on a log's records by edition, under PPCs.
    pub fn add_log(&mut self, bytes: &[u8]) {
        let mut rest = bytes;
        for (verdict, length) in log(bytes).records {
            self.add(heading(stated_edition(rest), PPCS), verdict);
            rest = &rest[length..];
        }
    }

    pub fn times(&self, heading: &str, number: u32) -> usize {
        let row = self.times.get(heading);
        row.and_then(|row| row.get(&number)).copied().unwrap_or(0)
    }

    /// Fails where one of the numbers came up less than `least` times under the heading.
    pub fn assert_each(&self, heading: &str, numbers: impl IntoIterator<Item = u32>, least: usize) {
        for number in numbers {
            let times = self.times(heading, number);
            assert!(times >= least, "{heading}: {number} came up {times} times");
        }
    }

    /// Fails where dependencies were refused for a reason less than `least` times.
    pub fn assert_unfit(&self, least: usize) {
        self.assert_each(UNFIT, Unfit::ALL.map(|why| why as u32), least);
    }

    /// Fails where the records of logs gave a verdict less than `least` times for an edition.
    pub fn assert_logs(&self, least: usize) {
        for edition in EDITIONS {
            let verdicts = [0].into_iter().chain(RULES);
            self.assert_each(heading(edition, PPCS), verdicts, least);
        }
    }

    /// Fails where judging gave one of its numbers less than `least` times for an edition and a
    /// model, or behind an edition's unprintable names less than a tenth of that.
    pub fn assert_judged(&self, least: usize) {
        for edition in EDITIONS {
            let behind = [0].into_iter().chain(RULES);
            self.assert_each(behind_the_name(edition), behind, least / 10);
            for model in [PPCW, PPCS] {
                let numbers = OF_READING.into_iter().chain(RULES);
                self.assert_each(heading(edition, model), numbers, least);
            }
        }
    }
}

impl fmt::Display for Tally {
    fn fmt(&self, f: &mut fmt::Formatter) -> fmt::Result {
        for (heading, row) in &self.times {
            write!(f, "{heading}:")?;
            for (number, times) in row {
                write!(f, "  {number} x {times}")?;
            }
            writeln!(f)?;
        }
        Ok(())
    }
}

pub fn model_name(model: u64) -> &'static str {
    match model {
        PPCW => "PPCw",
        PPCS => "PPCs",
        _ => "other models",
    }
}

pub fn edition_name(edition: u32) -> &'static str {
    match edition {
        FIRST => "edition 1",
        SECOND => "edition 2",
        _ => "no edition",
    }
}

/// The edition that the bytes state, if it is one that takes a byte; otherwise 0.
pub fn stated_edition(bytes: &[u8]) -> u32 {
    let stated = bytes.first().map_or(0, |&byte| u32::from(byte));
    if EDITIONS.contains(&stated) {
        stated
    } else {
        0
    }
}

/// The heading of what judging would give for an edition, were the name printable.
fn behind_the_name(edition: u32) -> &'static str {
    match edition {
        FIRST => "edition 1, behind an unprintable name",
        SECOND => "edition 2, behind an unprintable name",
        _ => "no edition, behind an unprintable name",
    }
}

/// The heading of what judging gives for an edition under a model.
pub fn heading(edition: u32, model: u64) -> &'static str {
    match (edition, model) {
        (FIRST, PPCW) => "edition 1, PPCw",
        (FIRST, PPCS) => "edition 1, PPCs",
        (SECOND, PPCW) => "edition 2, PPCw",
        (SECOND, PPCS) => "edition 2, PPCs",
        _ => "other editions and models",
    }
}
