//! A whole log: records back to back, judged under PPCs.

use crate::answer::{Refusal, OF_READING, ROOM};
use crate::judge::{judge, PPCS, RULES};
use crate::limits::COUNT;

/// How many rules there are.
pub const RULE_COUNT: usize = (*RULES.end() - *RULES.start() + 1) as usize;

/// How many records were judged, and how many of them gave each verdict.
#[derive(Clone, Copy, Debug, Default, PartialEq, Eq)]
pub struct Counts {
    pub records: u32,
    pub accepted: u32,
    /// By rule, from the first on.
    pub broken: [u32; RULE_COUNT],
}

impl Counts {
    /// The count of a verdict: 0 or a rule's number.
    fn of(&mut self, verdict: u32) -> &mut u32 {
        match verdict {
            0 => &mut self.accepted,
            rule => &mut self.broken[(rule - RULES.start()) as usize],
        }
    }

    /// With one more record of that verdict; None where a count can't grow.
    fn with(mut self, verdict: u32) -> Option<Counts> {
        if self.records == COUNT || *self.of(verdict) == COUNT {
            return None;
        }
        self.records += 1;
        *self.of(verdict) += 1;
        Some(self)
    }

    /// Records, accepted ones, and by rule.
    pub fn list(&self) -> Vec<u32> {
        [&[self.records, self.accepted][..], &self.broken].concat()
    }
}

/// The records of a log: the verdict on each, and how many bytes it takes. And what ends the log,
/// its place from the log's start, if it does not end between two records.
#[derive(Clone, Debug, PartialEq, Eq)]
pub struct Log {
    pub records: Vec<(u32, usize)>,
    pub refusal: Option<Refusal>,
}

/// Judges the records of a log.
pub fn log(bytes: &[u8]) -> Log {
    let mut records = Vec::new();
    let mut at = 0;
    while at < bytes.len() {
        let answer = judge(&bytes[at..], PPCS);
        if answer.number != 0 && OF_READING.contains(&answer.number) {
            let refusal = Some(Refusal {
                number: answer.number,
                place: at + answer.place,
            });
            return Log { records, refusal };
        }
        records.push((answer.number, answer.length));
        at += answer.length;
    }
    let refusal = None;
    Log { records, refusal }
}

/// What a log adds up to.
#[derive(Clone, Copy, Debug, PartialEq, Eq)]
pub struct Summary {
    pub counts: Counts,
    /// The bytes of the records that were counted.
    pub length: usize,
    /// What ended the log: its record's refusal, or 6 and 0 where a count could not grow.
    pub refusal: Option<Refusal>,
}

impl Summary {
    /// The counts, then the refusal and its place, 0 and 0 if there is none.
    pub fn list(&self) -> Vec<u64> {
        let mut list: Vec<u64> = self.counts.list().into_iter().map(u64::from).collect();
        let ending = |refusal: Refusal| [refusal.number.into(), refusal.place as u64];
        list.extend(self.refusal.map_or([0, 0], ending));
        list
    }
}

/// Counts the records of a log on top of other counts, up to the first that can't be counted.
pub fn summary(bytes: &[u8], counts: Counts) -> Summary {
    let log = log(bytes);
    let mut summary = Summary {
        counts,
        length: 0,
        refusal: log.refusal,
    };
    for (verdict, length) in log.records {
        let Some(counts) = summary.counts.with(verdict) else {
            let (number, place) = (ROOM, 0);
            summary.refusal = Some(Refusal { number, place });
            return summary;
        };
        summary.counts = counts;
        summary.length += length;
    }
    summary
}
