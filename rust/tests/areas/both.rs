//! Calls on areas by the library and by the other implementation.

use crate::common::plain;
use litmus::{area_append_raw, area_next_raw, area_repair_raw, Frame};
use ordinary::answer::Refusal;
use ordinary::area::{self, Store};
use ordinary::Answer;

/// What is done to an area.
#[derive(Clone, Copy, Debug)]
pub enum Call<'a> {
    Append(&'a [u8]),
    Repair,
}

impl<'a> Call<'a> {
    /// By the library.
    pub fn make(self, area: &mut [u8], allowed: u64) -> Answer {
        plain(match self {
            Call::Append(record) => area_append_raw(area, record, allowed),
            Call::Repair => area_repair_raw(area, allowed),
        })
    }

    /// By the other implementation.
    fn make_plainly(self, area: &mut [u8], allowed: u64) -> Answer {
        match self {
            Call::Append(record) => area::append(area, record, allowed),
            Call::Repair => area::repair(area, allowed),
        }
    }

    /// All its stores, by the other implementation.
    pub fn stores(self, area: &[u8]) -> Result<Vec<Store>, Refusal> {
        match self {
            Call::Append(record) => area::append_stores(area, record),
            Call::Repair => area::repair_stores(area),
        }
    }

    /// The record that is found once so many stores, which are all, are made.
    fn finished(self, stores: usize) -> Option<&'a [u8]> {
        match self {
            Call::Append(bytes) => Some(&bytes[..stores - 1]),
            Call::Repair => None,
        }
    }
}

/// Makes the call with both, compares answers and areas, and hands back the answer. A refusal
/// leaves every byte.
pub fn compare(area: &mut [u8], call: Call, allowed: u64) -> Answer {
    let before = area.to_vec();
    let mut other = before.clone();
    let expected = call.make_plainly(&mut other, allowed);
    let answer = call.make(area, allowed);
    let context = || format!("{call:?} by {allowed} stores in {before:?}");
    assert_eq!(answer, expected, "{}", context());
    assert_eq!(area, other, "{}", context());
    assert!(answer.number == 0 || area == before, "{}", context());
    answer
}

/// The records that the library finds, and the log's own fault.
pub fn found(area: &[u8]) -> (Vec<&[u8]>, Option<litmus::Refusal>) {
    let (records, faults): (Vec<_>, Vec<_>) = litmus::area_records(area).partition(Result::is_ok);
    assert!(faults.len() <= 1, "{area:?}");
    let records = records.into_iter().flatten().collect();
    (records, faults.into_iter().find_map(Result::err))
}

/// The records that the other implementation finds.
pub fn plainly_found(area: &[u8]) -> Vec<&[u8]> {
    let places = area::find(area).records.into_iter();
    places.map(|place| &area[place]).collect()
}

/// Cuts the call after each number of stores, up to two more than it makes, and hands back how many
/// it makes. The records before are found, and a new one exactly if the last store, its flag's, was
/// made.
pub fn every_cut(area: &[u8], call: Call) -> usize {
    let stores = call.stores(area).expect("no refusal");
    let earlier = plainly_found(area);
    let mut expected = area.to_vec();
    for allowed in 0..stores.len() + 3 {
        let made = allowed.min(stores.len());
        let mut cut = area.to_vec();
        let answer = call.make(&mut cut, allowed as u64);
        let context = || format!("{call:?} by {allowed} stores in {area:?}");
        assert_eq!(answer, Answer::done(made), "{}", context());
        assert_eq!(cut, expected, "{}", context());
        let mut records = earlier.clone();
        if made == stores.len() {
            records.extend(call.finished(made));
        }
        assert_eq!(found(&cut), (records, None), "{}", context());
        if let Some(&(place, byte)) = stores.get(allowed) {
            expected[place] = byte;
        }
    }
    stores.len()
}

/// What stands at a place, by both.
pub fn frame(area: &[u8], at: u64) -> Frame {
    let frame = area_next_raw(area, at);
    let mut expected = Frame::default();
    match area::frame(area, at as usize) {
        Ok(Some(record)) => {
            (expected.at, expected.length) = (record.start as u64, record.len() as u64);
        }
        Ok(None) => expected.ended = true,
        Err(Refusal { number, place }) => {
            expected.ended = true;
            (expected.number, expected.place) = (number, place as u64);
        }
    }
    assert_eq!(frame, expected, "at {at} of {area:?}");
    frame
}
