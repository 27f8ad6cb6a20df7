//! An area in a file, beside the records that it is to hold.

use crate::found::{found, Found};
use crate::pace::Ending;
use ordinary::area::BLANK;
use ordinary::generate::{any_case, full, greatest};
use ordinary::limits::{EDITIONS, EVENTS};
use ordinary::random::Random;
use ordinary::write;
use std::fs::{self, File};
use std::path::{Path, PathBuf};

pub struct Trial {
    file: PathBuf,
    /// The standard input of the next process.
    input: PathBuf,
    records: Vec<Vec<u8>>,
    /// What was found in the file the last time.
    found: Found,
}

impl Trial {
    /// A new area that so many records fill, or all but a few bytes of it.
    pub fn new(random: &mut Random, path: &Path, count: usize) -> Trial {
        let records: Vec<Vec<u8>> = (0..count).map(|_| any_record(random)).collect();
        let size: usize = records.iter().map(|record| 1 + record.len()).sum();
        let file = path.with_extension("area");
        fs::write(&file, vec![BLANK; size + random.below(3)]).expect("it is written");
        Trial {
            input: path.with_extension("log"),
            records,
            found: found(&file),
            file,
        }
    }

    pub fn file(&self) -> &Path {
        &self.file
    }

    /// How many records are not in the area.
    pub fn missing(&self) -> usize {
        self.records.len() - self.found.records.len()
    }

    /// The next records as a standard input.
    pub fn offer(&self, count: usize) -> File {
        let next = &self.records[self.found.records.len()..][..count];
        fs::write(&self.input, next.concat()).expect("it is written");
        File::open(&self.input).expect("a file")
    }

    pub fn is_unfinished(&self) -> bool {
        self.found.is_unfinished()
    }

    /// What a process left that was offered so many records: those before, all that it said to have
    /// appended, and at most one more.
    pub fn check_appended(&mut self, offered: usize, ending: &Ending) {
        let now = found(&self.file);
        assert!(self.records.starts_with(&now.records));
        let count = now.records.len();
        let new = count.checked_sub(self.found.records.len()).expect("all");
        assert!(
            ending.appended <= new && new <= offered,
            "{new}: {ending:?}"
        );
        assert!(new <= ending.appended + usize::from(ending.killed));
        assert!(ending.killed || new == offered, "{new}: {ending:?}");
        let next = self.records.get(count).map_or(&[][..], Vec::as_slice);
        assert!(now.is_cut(next) || now.is_cleared_part_of(&self.found));
        self.found = now;
    }

    /// What a repair left; whether it has cleared anything.
    pub fn check_repaired(&mut self, ending: &Ending) -> bool {
        let now = found(&self.file);
        assert!(now.is_cleared_part_of(&self.found));
        assert!(ending.killed || !now.is_unfinished());
        let cleared = now.behind != self.found.behind;
        self.found = now;
        cleared
    }
}

/// Most have few bytes, and some tens of thousands.
fn any_record(random: &mut Random) -> Vec<u8> {
    let edition = random.pick(&EDITIONS);
    write::record(&match random.below(12) {
        0 => greatest(edition),
        1 | 2 => full(random, edition, EVENTS),
        _ => any_case(random),
    })
}
