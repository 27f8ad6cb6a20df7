//! What a file holds of an area, found without the library.

use ordinary::area::{find, BLANK};
use std::fs;
use std::path::Path;

/// The records of finished frames, and the bytes behind these.
pub struct Found {
    pub records: Vec<Vec<u8>>,
    pub behind: Vec<u8>,
}

/// Walks over an area whose log has no fault.
pub fn found(file: &Path) -> Found {
    let bytes = fs::read(file).expect("an area");
    let found = find(&bytes);
    assert_eq!(
        found.refusal,
        None,
        "behind {} records",
        found.records.len()
    );
    let records = found.records.into_iter();
    Found {
        records: records.map(|place| bytes[place].to_vec()).collect(),
        behind: bytes[found.end..].to_vec(),
    }
}

impl Found {
    /// Whether bytes behind the last finished frame are not blank.
    pub fn is_unfinished(&self) -> bool {
        self.behind.iter().any(|&byte| byte != BLANK)
    }

    /// Whether an append of that record that was cut left these bytes: its flag and the record's
    /// end are blank.
    pub fn is_cut(&self, record: &[u8]) -> bool {
        let last = self.behind.iter().rposition(|&byte| byte != BLANK);
        last.is_none_or(|last| record.starts_with(&self.behind[1..=last]))
    }

    /// Whether a repair that was cut left this: the same records, and more blank bytes in front.
    pub fn is_cleared_part_of(&self, before: &Found) -> bool {
        let first = self.behind.iter().position(|&byte| byte != BLANK);
        let first = first.unwrap_or(self.behind.len());
        self.records == before.records && before.behind.ends_with(&self.behind[first..])
    }
}
