//! One record for all that differ only in the labels of threads and addresses: the least of them.

use crate::answer::Answer;
use crate::case::Case;
use crate::permutation::{fits, COUNT};
use crate::read::read;
use crate::renumber::relabel;
use crate::write;

/// The case without fault by every two permutations that fit it. Where it has fewer labels than a
/// permutation moves, some come more than once.
pub fn renumberings(case: &Case) -> impl Iterator<Item = Case> + '_ {
    let both = (0..COUNT).flat_map(|q| (0..COUNT).map(move |r| (q, r)));
    let both = both.filter(|&(q, r)| fits(q, case.threads()) && fits(r, case.addresses()));
    both.map(|(q, r)| relabel(case, q, r))
}

/// Of the renumberings of a case without fault the one with the least record.
pub fn least(case: &Case) -> Case {
    let least = renumberings(case).min_by_key(write::record);
    least.expect("the case itself is one")
}

/// Writes the representative of a record's class into a buffer from a place.
pub fn representative(record: &[u8], out: &mut [u8], at: usize) -> Answer {
    match read(record) {
        Err(refusal) => refusal.into(),
        Ok(reading) => write::place(&write::record(&least(&reading.case)), out, at),
    }
}

/// The representative of a case, or the number of the refusal.
pub fn representative_case(case: &Case) -> Result<Case, u32> {
    match case.fault() {
        0 => Ok(least(case)),
        fault => Err(fault),
    }
}

/// The lesser of two records, the first where they are equal; None where one of them is refused.
pub fn lesser<'a>(first: &'a [u8], second: &'a [u8]) -> Option<&'a [u8]> {
    let [first, second] = [first, second].map(|bytes| {
        let length = read(bytes).ok()?.length;
        Some(&bytes[..length])
    });
    Some(first?.min(second?))
}
