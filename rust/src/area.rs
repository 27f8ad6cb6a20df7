//! An area: lent bytes that keep records through a power failure.

use crate::{archive, done, Answer, Part, Refusal};
use std::fmt;
use std::iter::FusedIterator;

const NO_ROOM: u32 = 6;
const UNREPAIRED: u32 = 8;

/// What stands at a place of an area, as `litmus_frame` of `litmus.h`. Fields that do not apply are
/// 0.
#[repr(C)]
#[derive(Clone, Copy, Debug, Default, PartialEq, Eq)]
pub struct Frame {
    /// Where the log ends, 0 or its own fault: 9, 1 to 4 or 23.
    pub number: u32,
    /// Whether no finished frame stands there, so that the log ends.
    pub ended: bool,
    /// Where the fault lies, from the area's start.
    pub place: u64,
    /// Where the record of a finished frame begins.
    pub at: u64,
    /// How many bytes that record has. The next frame is at `at + length`.
    pub length: u64,
}

/// Of the log's own fault.
impl From<Frame> for Refusal {
    fn from(frame: Frame) -> Refusal {
        Refusal::of_bytes(frame.number, frame.place)
    }
}

/// Lent bytes that keep records through a power failure. At first they are all `FF`.
///
/// A record is appended byte by byte, and the flag that makes it count is stored last. So whichever
/// store is the last one, every record appended before is found, and the new one exactly if its
/// flag was stored. After a cut a repair clears what was left behind. The bytes have to keep stores
/// in the order in which they are made.
///
/// ```
/// use litmus::{AppendRefusal, Area};
///
/// // One thread stores 1 to an address and loads 1 from it.
/// let record = [1, 1, 1, 0, 2, 1, 0, 0, 1, 0, 0, 0, 1, 0, 1, 0, 1, 1, 97];
/// let mut bytes = [Area::BLANK; 64];
/// let mut area = Area::new(&mut bytes);
/// assert_eq!(area.append(&record), Ok(20));
///
/// // The power fails after seven stores.
/// assert_eq!(area.append_some(&record, 7), Ok(7));
/// assert_eq!(area.records().count(), 1);
/// let refusal = area.append(&record).unwrap_err();
/// assert_eq!(refusal, AppendRefusal::Unrepaired);
/// assert_eq!(
///     refusal.to_string(),
///     "refused with 8: bytes behind the last finished frame are not FF; a repair clears them"
/// );
///
/// assert_eq!(area.repair(), Ok(7));
/// assert_eq!(area.append(&record), Ok(20));
/// let found: Result<Vec<&[u8]>, _> = litmus::area_records(&bytes).collect();
/// assert_eq!(found, Ok(vec![&record[..]; 2]));
/// ```
#[derive(Debug)]
pub struct Area<'a> {
    bytes: &'a mut [u8],
}

impl<'a> Area<'a> {
    /// What every byte of an area is at first.
    pub const BLANK: u8 = 0xFF;

    /// Bytes that are all blank, or that are an area already.
    pub fn new(bytes: &'a mut [u8]) -> Area<'a> {
        Area { bytes }
    }

    /// The bytes as they are.
    pub fn bytes(&self) -> &[u8] {
        self.bytes
    }

    /// The records that are found.
    pub fn records(&self) -> Records<'_> {
        area_records(self.bytes)
    }

    /// Appends the record at the front of some bytes, and gives the stores made: one for each byte
    /// of it and one for the flag. Under a refusal the area stays as it was.
    pub fn append(&mut self, record: &[u8]) -> Result<usize, AppendRefusal> {
        self.append_some(record, u64::MAX)
    }

    /// [`Area::append`] that stops after as many stores as are allowed, and gives those made.
    pub fn append_some(&mut self, record: &[u8], allowed: u64) -> Result<usize, AppendRefusal> {
        let answer = area_append_raw(self.bytes, record, allowed);
        done(answer).map_err(|refusal| AppendRefusal::of(refusal, self.bytes))
    }

    /// Fills what lies behind the last finished frame with `FF`, and gives the stores made: one for
    /// each byte that was not. Where the log has a fault, the area stays as it was.
    pub fn repair(&mut self) -> Result<usize, Refusal> {
        self.repair_some(u64::MAX)
    }

    /// [`Area::repair`] that stops after as many stores as are allowed, and gives those made.
    pub fn repair_some(&mut self, allowed: u64) -> Result<usize, Refusal> {
        done(area_repair_raw(self.bytes, allowed))
    }
}

/// The records of an area, each once and in order; then the log's own fault, if it has one.
///
/// A step is one call of the library, so each record is read once.
#[derive(Clone, Debug)]
pub struct Records<'a> {
    area: &'a [u8],
    /// Where the next frame begins; None once the log has ended.
    at: Option<u64>,
}

/// The records that are found in an area's bytes.
pub fn area_records(area: &[u8]) -> Records<'_> {
    let at = Some(0);
    Records { area, at }
}

impl<'a> Iterator for Records<'a> {
    type Item = Result<&'a [u8], Refusal>;

    fn next(&mut self) -> Option<Result<&'a [u8], Refusal>> {
        let frame = area_next_raw(self.area, self.at?);
        let Frame { at, length, .. } = frame;
        if frame.ended {
            self.at = None;
            return (frame.number != 0).then(|| Err(frame.into()));
        }
        self.at = Some(at + length);
        Some(Ok(Part { at, length }.of(self.area)))
    }
}

impl FusedIterator for Records<'_> {}

/// Why a record was not appended. Its words are the refusal's, and whose it is.
#[derive(Clone, Copy, Debug, PartialEq, Eq)]
pub enum AppendRefusal {
    /// The log's own fault: 9, 1 to 4 or 23, its place from the area's start.
    Log(Refusal),
    /// The new record's: 1 to 4 or 23, its place in the record's bytes.
    Record(Refusal),
    /// 6: too few bytes lie behind the last finished frame.
    NoRoom,
    /// 8: some of them are not `FF`.
    Unrepaired,
}

impl AppendRefusal {
    /// Of a refusal by an area, whose log is looked at again to tell its fault from the record's.
    fn of(refusal: Refusal, area: &[u8]) -> AppendRefusal {
        match refusal.number {
            NO_ROOM => AppendRefusal::NoRoom,
            UNREPAIRED => AppendRefusal::Unrepaired,
            _ => match area_records(area).find_map(Result::err) {
                Some(fault) => AppendRefusal::Log(fault),
                None => AppendRefusal::Record(refusal),
            },
        }
    }

    /// Its number and place.
    pub fn refusal(self) -> Refusal {
        match self {
            AppendRefusal::Log(refusal) | AppendRefusal::Record(refusal) => refusal,
            AppendRefusal::NoRoom => Refusal::of_bytes(NO_ROOM, 0),
            AppendRefusal::Unrepaired => Refusal::of_bytes(UNREPAIRED, 0),
        }
    }
}

impl fmt::Display for AppendRefusal {
    fn fmt(&self, f: &mut fmt::Formatter) -> fmt::Result {
        f.write_str(match self {
            AppendRefusal::Log(_) => "the log is ",
            AppendRefusal::Record(_) => "the record is ",
            AppendRefusal::NoRoom | AppendRefusal::Unrepaired => "",
        })?;
        write!(f, "{}", self.refusal())
    }
}

impl std::error::Error for AppendRefusal {}

/// [`Area::append_some`] with the library's own answer, whose length is the stores made.
pub fn area_append_raw(area: &mut [u8], record: &[u8], allowed: u64) -> Answer {
    let (start, size) = (area.as_mut_ptr(), area.len());
    // SAFETY: both are slices, and the area is lent alone, so they do not overlap.
    unsafe { archive::litmus_area_append(start, size, record.as_ptr(), record.len(), allowed) }
}

/// [`Area::repair_some`] with the library's own answer, whose length is the stores made.
pub fn area_repair_raw(area: &mut [u8], allowed: u64) -> Answer {
    // SAFETY: pointer and length are a slice's, which is lent alone.
    unsafe { archive::litmus_area_repair(area.as_mut_ptr(), area.len(), allowed) }
}

/// What stands at any place of an area: at 0 the first frame, and behind each record the next.
pub fn area_next_raw(area: &[u8], at: u64) -> Frame {
    // SAFETY: pointer and length are a slice's, which the call only reads.
    unsafe { archive::litmus_area_next(area.as_ptr(), area.len(), at) }
}
