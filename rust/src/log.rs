//! A log of records, judged under PPCs as they come.

use crate::{archive, Refusal, FIRST_RULE, RECORD_BYTES, RULES};
use std::fmt;

/// How the records of a log were judged, as `litmus_tally` of `litmus.h`.
#[repr(C)]
#[derive(Clone, Copy, Debug, Default, PartialEq, Eq)]
pub struct Tally {
    /// How many records were judged.
    pub records: u32,
    /// How many of them were accepted.
    pub accepted: u32,
    /// By rule, from [`FIRST_RULE`] on: for how many it is the lowest that they break.
    pub broken: [u32; RULES],
}

/// Names the rules whose count is not 0.
impl fmt::Display for Tally {
    fn fmt(&self, f: &mut fmt::Formatter) -> fmt::Result {
        write!(f, "records: {}, accepted: {}", self.records, self.accepted)?;
        let rules = (FIRST_RULE..).zip(self.broken);
        for (rule, count) in rules.filter(|&(_, count)| count > 0) {
            write!(f, ", rule {rule}: {count}")?;
        }
        Ok(())
    }
}

/// What a call on some bytes of a log answers, as in `litmus.h`.
#[repr(C)]
#[derive(Clone, Copy, Debug, PartialEq, Eq)]
pub struct LogAnswer {
    /// Where the log has ended, 0 or the refusal that ended it: 1 to 4, 23, or 6 for a full count.
    pub number: u32,
    /// Whether the log has ended, whatever bytes may follow.
    pub ended: bool,
    /// Under 1 to 4 and 23, where the fault lies, from the log's start.
    pub place: u64,
    /// How many of the bytes are those of records that were added to the tally.
    pub length: usize,
}

/// A log's tally, and how the log ended.
#[derive(Clone, Copy, Debug, PartialEq, Eq)]
pub struct LogSummary {
    pub tally: Tally,
    /// Why the next record was not judged, its place counted from the log's start; None where the
    /// log ended between two records.
    pub refusal: Option<Refusal>,
}

impl fmt::Display for LogSummary {
    fn fmt(&self, f: &mut fmt::Formatter) -> fmt::Result {
        match self.refusal {
            Some(refusal) => write!(f, "{}; then {refusal}", self.tally),
            None => write!(f, "{}", self.tally),
        }
    }
}

/// How many bytes of a piece are copied behind those that are kept, so that these are judged. A
/// record is whole with as many bytes, or it is refused.
const CHUNK: usize = 65_536;
const _: () = assert!(CHUNK >= RECORD_BYTES);

/// A log that comes in pieces. Records are judged under PPCs as soon as they are whole, and added
/// to a tally. The first that is refused ends the log. However the log is cut, the summary is the
/// same.
///
/// It keeps no more than the start of a record, [`RECORD_BYTES`] at most, and copies at most
/// 64 KiB of a piece to go with it. A record that comes in many pieces is read again with each of
/// them, so pieces should not be much shorter than records.
///
/// ```
/// use litmus::Log;
///
/// // One thread stores 1 to an address and loads 1 from it; then the same, but the load holds 0.
/// let accepted = [1, 1, 1, 0, 2, 1, 0, 0, 1, 0, 0, 0, 1, 0, 1, 0, 1, 1, 97];
/// let mut broken = accepted;
/// broken[12] = 0;
///
/// let mut log = Log::new();
/// log.feed(&accepted);
/// log.feed(&broken[..7]);
/// assert_eq!(log.tally().records, 1);
/// log.feed(&broken[7..]);
/// assert_eq!(log.finish().to_string(), "records: 2, accepted: 1, rule 16: 1");
///
/// // There is no edition 9.
/// let mut log = Log::new();
/// log.feed(&accepted);
/// log.feed(&[9]);
/// assert!(log.has_ended());
/// assert_eq!(
///     log.finish().to_string(),
///     "records: 1, accepted: 1; then refused with 3: a number is outside its range (byte 19)"
/// );
/// ```
#[derive(Clone, Debug, Default)]
pub struct Log {
    progress: Progress,
    /// The bytes that were not judged yet: the start of a record.
    kept: Vec<u8>,
}

/// How far a log is judged.
#[derive(Clone, Debug, Default)]
struct Progress {
    tally: Tally,
    /// The bytes of the records that were judged.
    place: u64,
    /// How the log ended, once it has.
    ending: Option<LogAnswer>,
}

impl Log {
    /// Its tally begins with zeros.
    pub fn new() -> Log {
        Log::default()
    }

    /// Its records are added to another log's tally.
    pub fn with(tally: Tally) -> Log {
        let mut log = Log::new();
        log.progress.tally = tally;
        log
    }

    /// The tally of the records so far.
    pub fn tally(&self) -> Tally {
        self.progress.tally
    }

    /// Whether the log has ended with a refusal, so that further pieces change nothing.
    pub fn has_ended(&self) -> bool {
        self.progress.ending.is_some()
    }

    /// Judges the records that the next bytes of the log complete.
    pub fn feed(&mut self, piece: &[u8]) {
        let rest = match self.kept.is_empty() {
            true => piece,
            false => self.feed_front(piece),
        };
        let length = self.progress.judge(rest, false);
        match self.has_ended() {
            true => self.kept.clear(),
            false => self.kept.extend_from_slice(&rest[length..]),
        }
    }

    /// Judges the bytes that are kept with a chunk of the piece, and gives the bytes of the piece
    /// that are neither judged nor kept then.
    fn feed_front<'a>(&mut self, piece: &'a [u8]) -> &'a [u8] {
        let held = self.kept.len();
        let (chunk, behind) = piece.split_at(piece.len().min(CHUNK));
        self.kept.extend_from_slice(chunk);
        let length = self.progress.judge(&self.kept, false);
        if behind.is_empty() {
            self.kept.drain(..length);
            return behind;
        }
        self.kept.clear();
        // The record that was kept is judged; or it is refused, and the rest of the piece has no
        // say.
        &piece[length.saturating_sub(held)..]
    }

    /// No more bytes follow.
    pub fn finish(mut self) -> LogSummary {
        self.progress.judge(&self.kept, true);
        let refused = self.progress.ending.filter(|ending| ending.number != 0);
        LogSummary {
            tally: self.progress.tally,
            refusal: refused.map(Refusal::from),
        }
    }
}

impl Progress {
    /// Judges the records of the bytes behind those that were judged, and gives how many bytes they
    /// take. Once the log has ended there are none.
    fn judge(&mut self, bytes: &[u8], last: bool) -> usize {
        if self.ending.is_some() {
            return 0;
        }
        let answer = judge_log_raw(bytes, self.place, last, &mut self.tally);
        self.place = self.place.wrapping_add(answer.length as u64);
        self.ending = answer.ended.then_some(answer);
        answer.length
    }
}

impl From<LogAnswer> for Refusal {
    fn from(answer: LogAnswer) -> Refusal {
        Refusal::of_bytes(answer.number, answer.place)
    }
}

/// Judges every complete record of some bytes of a log, which begin at the place `from`, and adds
/// them to the tally; `last` says that no more follow. With the library's own answer: the bytes
/// behind those of its length have to come again, in front of further ones, with `from` raised by
/// the length.
pub fn judge_log_raw(bytes: &[u8], from: u64, last: bool, tally: &mut Tally) -> LogAnswer {
    let (start, size) = (bytes.as_ptr(), bytes.len());
    // SAFETY: the bytes are a slice, which the call only reads, and the tally is lent alone.
    unsafe { archive::litmus_log_judge(start, size, from, last, tally) }
}
