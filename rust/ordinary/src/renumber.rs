//! New labels for threads and addresses.

use crate::answer::{Answer, PERMUTATION};
use crate::case::Case;
use crate::permutation::{fits, images, Images};
use crate::read::read;
use crate::write;

/// The case with threads renumbered by `q` and addresses by `r`, which fit it. Events keep their
/// numbers, so dependencies stay as they are.
pub fn relabel(case: &Case, q: u64, r: u64) -> Case {
    let (threads, addresses) = (images(q), images(r));
    let mut new = case.clone();
    for event in &mut new.events {
        event.thread = threads[event.thread];
        if !event.is_barrier() {
            event.address = addresses[event.address];
        }
    }
    new.initial = moved(&case.initial, addresses);
    new.write_orders = moved(&case.write_orders, addresses);
    new.orders = moved(&case.orders, threads);
    new
}

/// The list with each entry at its new label.
pub fn moved<T: Clone>(list: &[T], images: Images) -> Vec<T> {
    let mut new = list.to_vec();
    for (label, entry) in list.iter().enumerate() {
        new[images[label]] = entry.clone();
    }
    new
}

/// Renumbers a record into a buffer from a place.
pub fn renumber(record: &[u8], q: u64, r: u64, out: &mut [u8], at: usize) -> Answer {
    match read(record) {
        Err(refusal) => refusal.into(),
        Ok(reading) => match renumber_case(&reading.case, q, r) {
            Ok(case) => write::place(&write::record(&case), out, at),
            Err(number) => Answer::refused(number),
        },
    }
}

/// Renumbers a case, or gives the number of the refusal.
pub fn renumber_case(case: &Case, q: u64, r: u64) -> Result<Case, u32> {
    match case.fault() {
        0 if fits(q, case.threads()) && fits(r, case.addresses()) => Ok(relabel(case, q, r)),
        0 => Err(PERMUTATION),
        fault => Err(fault),
    }
}
