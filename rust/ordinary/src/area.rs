//! An area: records in frames, each a flag and a record, that survive a cut between any two stores.

use crate::answer::{Answer, Refusal, FLAG, ROOM, UNREPAIRED};
use crate::read::read;
use std::ops::Range;

/// The flag of a finished frame.
pub const FINISHED: u8 = 0x00;
/// What every byte of an area is at first; as a flag it ends the log.
pub const BLANK: u8 = 0xFF;

/// A byte, and where it is stored.
pub type Store = (usize, u8);

/// Where the record of the finished frame at a place lies; None where the log ends there.
pub fn frame(area: &[u8], at: usize) -> Result<Option<Range<usize>>, Refusal> {
    match area.get(at).copied() {
        None | Some(BLANK) => Ok(None),
        Some(FINISHED) => record(area, at + 1).map(Some),
        Some(_) => Err(Refusal {
            number: FLAG,
            place: at,
        }),
    }
}

/// Where the record from a place on lies.
fn record(area: &[u8], start: usize) -> Result<Range<usize>, Refusal> {
    let reading = read(&area[start..]).map_err(|Refusal { number, place }| Refusal {
        number,
        place: start + place,
    })?;
    Ok(start..start + reading.length)
}

/// What is found in an area: where each record of a finished frame lies, where the last such frame
/// ends, and the log's own fault, its place from the area's start.
#[derive(Clone, Debug, PartialEq, Eq)]
pub struct Found {
    pub records: Vec<Range<usize>>,
    pub end: usize,
    pub refusal: Option<Refusal>,
}

/// Looks through an area.
pub fn find(area: &[u8]) -> Found {
    let mut found = Found {
        records: Vec::new(),
        end: 0,
        refusal: None,
    };
    loop {
        match frame(area, found.end) {
            Ok(Some(record)) => {
                found.end = record.end;
                found.records.push(record);
            }
            Ok(None) => return found,
            Err(refusal) => {
                found.refusal = Some(refusal);
                return found;
            }
        }
    }
}

/// Where the last finished frame ends, of a log without fault.
fn end(area: &[u8]) -> Result<usize, Refusal> {
    let found = find(area);
    found.refusal.map_or(Ok(found.end), Err)
}

/// The places behind the last finished frame whose bytes are not blank.
fn unblank(area: &[u8], end: usize) -> Vec<usize> {
    let places = end..area.len();
    places.filter(|&place| area[place] != BLANK).collect()
}

/// The stores that append the record at the front of some bytes, in order.
pub fn append_stores(area: &[u8], bytes: &[u8]) -> Result<Vec<Store>, Refusal> {
    let end = end(area)?;
    let record = &bytes[..read(bytes)?.length];
    let refuse = |number| Err(Refusal { number, place: 0 });
    if end + 1 + record.len() > area.len() {
        return refuse(ROOM);
    }
    if !unblank(area, end).is_empty() {
        return refuse(UNREPAIRED);
    }
    let mut stores: Vec<Store> = (end + 1..).zip(record.iter().copied()).collect();
    stores.push((end, FINISHED));
    Ok(stores)
}

/// The stores that repair an area, in order.
pub fn repair_stores(area: &[u8]) -> Result<Vec<Store>, Refusal> {
    let places = unblank(area, end(area)?).into_iter();
    Ok(places.map(|place| (place, BLANK)).collect())
}

/// Appends the record at the front of some bytes, by as many stores as are allowed.
pub fn append(area: &mut [u8], bytes: &[u8], allowed: u64) -> Answer {
    let stores = append_stores(area, bytes);
    answer(area, stores, allowed)
}

/// Repairs an area, by as many stores as are allowed.
pub fn repair(area: &mut [u8], allowed: u64) -> Answer {
    let stores = repair_stores(area);
    answer(area, stores, allowed)
}

/// Makes the first stores, as many as are allowed, and says how many these are.
fn answer(area: &mut [u8], stores: Result<Vec<Store>, Refusal>, allowed: u64) -> Answer {
    let mut stores = match stores {
        Ok(stores) => stores,
        Err(refusal) => return refusal.into(),
    };
    stores.truncate(allowed.try_into().unwrap_or(usize::MAX));
    for &(place, byte) in &stores {
        area[place] = byte;
    }
    Answer::done(stores.len())
}
