//! What the programs print of a log.

use ordinary::log::{summary, Counts};

/// The ten counts, the refusal that ended the log and its place, one number a line.
pub fn lines(log: &[u8]) -> String {
    let numbers = summary(log, Counts::default()).list();
    assert_eq!(numbers.len(), 12);
    numbers.iter().map(|number| format!("{number}\n")).collect()
}
