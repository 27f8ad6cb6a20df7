//! Judges litmus cases under the POWER memory models PPCw and PPCs.
//!
//! This is a thin, safe wrapper: the work is done by the proved library in the archive
//! `liblitmus.a`. A record is one candidate execution in bytes; `docs/FORMAT.md` describes it.
//! There are two editions of records, and every function takes both: edition 2 has lwsyncs and
//! dependencies.
//!
//! ```
//! use litmus::{judge, Model, Verdict};
//!
//! // One thread stores 1 to an address and loads 1 from it. The record's name is "a".
//! let mut record = [1, 1, 1, 0, 2, 1, 0, 0, 1, 0, 0, 0, 1, 0, 1, 0, 1, 1, 97];
//! let Ok(Verdict::Accepted { length, finals }) = judge(&record, Model::PpcS) else {
//!     panic!("this execution is possible");
//! };
//! assert_eq!((length, finals[0]), (19, 1));
//! assert_eq!(litmus::name(&record), b"a");
//!
//! // The same, but the load holds 0: the store before it is lost.
//! record[12] = 0;
//! let verdict = judge(&record, Model::PpcS).expect("it still can be read");
//! assert_eq!(
//!     verdict.to_string(),
//!     "not possible: rule 16: a load holds another value than some store to its address, does not come before it, and no other store lies between"
//! );
//!
//! // Cut short, it can't be read.
//! let refusal = judge(&record[..5], Model::PpcS).unwrap_err();
//! assert_eq!(
//!     refusal.to_string(),
//!     "refused with 1: the bytes end inside a number or the name (byte 5)"
//! );
//! ```
//!
//! [`condition`] says whether a condition on final memory and loaded values holds for a record. A
//! program that builds its cases itself uses [`Case`]; one that judges records as they come uses
//! [`Log`]; one that keeps records through a power failure uses [`Area`]. [`trace()`] says of a run of
//! the storage subsystem whether each step may happen where it stands. The functions ending in `_raw`
//! take any numbers and give the library's own answers.

mod answer;
mod archive;
mod area;
mod case;
mod class;
mod condition;
mod log;
mod trace;

pub use answer::{meaning, Answer, CaseAnswer, Choice, Finals, Part, Refusal, Rule, Verdict};
pub use area::{area_append_raw, area_next_raw, area_records, area_repair_raw};
pub use area::{AppendRefusal, Area, Frame, Records};
pub use case::Case;
pub use class::{compared, compared_raw, lesser, representative, representative_raw};
pub use class::{same_class, write_representative, Lesser};
pub use condition::TextFault;
pub use condition::{condition, condition_raw, Asked, ConditionAnswer, ConditionRefusal};
pub use log::{judge_log_raw, Log, LogAnswer, LogSummary, Tally};
pub use trace::{read_trace, read_trace_raw, trace, trace_raw, TraceAnswer, TraceReading};
pub use trace::{BarrierClass, Propagated, Step, StepCondition, Steps, Storage, Traced};

use std::fmt;

/// The edition without lwsyncs and dependencies.
pub const EDITION_1: u32 = 1;
/// The edition with lwsyncs and dependencies.
pub const EDITION_2: u32 = 2;
/// The most bytes of a record of edition 1, as in `litmus.h`.
pub const EDITION_1_BYTES: usize = 33_409;
/// The most bytes of a record of edition 2, as in `litmus.h`.
pub const EDITION_2_BYTES: usize = 33_697;
/// The most bytes of a record: a buffer of this length takes any.
pub const RECORD_BYTES: usize = EDITION_2_BYTES;

/// The most threads of a case, as in `litmus.h`.
pub const THREADS: usize = 4;
/// The most addresses of a case, as in `litmus.h`.
pub const ADDRESSES: usize = 4;
/// The most events of a case, as in `litmus.h`.
pub const EVENTS: usize = 64;
/// The most dependencies of a case, as in `litmus.h`.
pub const DEPENDENCIES: usize = 96;
/// The most bytes of a name, as in `litmus.h`.
pub const NAME_BYTES: usize = 32;
/// The most bytes of a condition's text, as in `litmus.h`.
pub const CONDITION_BYTES: usize = 512;
/// How deep `~` and brackets may be nested in a condition, as in `litmus.h`.
pub const CONDITION_DEPTH: usize = 16;
/// The most steps of a trace, as in `litmus.h`.
pub const STEPS: usize = 128;
/// The most writes that a trace accepts, as in `litmus.h`.
pub const WRITES: usize = 16;
/// The most barriers that a trace accepts, as in `litmus.h`.
pub const BARRIERS: usize = 8;
/// The most events that are propagated to a thread, as in `litmus.h`.
pub const LISTED: usize = WRITES + BARRIERS;
/// The most bytes of a trace, as in `litmus.h`.
pub const TRACE_BYTES: usize = 1_048;
/// The number of the first rule, as in `litmus.h`.
pub const FIRST_RULE: u32 = 11;
/// How many rules there are, as in `litmus.h`.
pub const RULES: usize = 8;
/// How many final values an [`Answer`] has.
pub const FINALS: usize = ADDRESSES;

/// Each thread's order: bit b at `p * EVENTS + a` says that event a comes before event b in thread
/// p's order.
pub type Rows = [u64; THREADS * EVENTS];

/// A memory model.
#[derive(Clone, Copy, Debug, PartialEq, Eq)]
pub enum Model {
    /// Rules 15 and 16 speak of each thread's own loads.
    PpcW = 0,
    /// Rules 15 and 16 speak of every load of the thread or in its order.
    PpcS = 1,
}

impl fmt::Display for Model {
    fn fmt(&self, f: &mut fmt::Formatter) -> fmt::Result {
        f.write_str(match self {
            Model::PpcW => "PPCw",
            Model::PpcS => "PPCs",
        })
    }
}

/// How many bytes the record at the front takes.
pub fn read(record: &[u8]) -> Result<usize, Refusal> {
    done(read_raw(record))
}

/// Judges the record at the front under a model.
pub fn judge(record: &[u8], model: Model) -> Result<Verdict, Refusal> {
    let answer = judge_raw(record, model as u64);
    Verdict::of(answer, || addresses(record)).ok_or(answer.into())
}

/// How many addresses a readable record has: its third number, which like the two before it takes one
/// byte.
fn addresses(record: &[u8]) -> usize {
    usize::from(record[2])
}

/// Writes the record, its threads and addresses renumbered by two of the 24 permutations, into
/// `out` from byte `at` onward, and gives its length. Under a refusal `out` stays as it was.
pub fn renumber(
    record: &[u8],
    threads: u64,
    addresses: u64,
    out: &mut [u8],
    at: usize,
) -> Result<usize, Refusal> {
    done(renumber_raw(record, threads, addresses, out, at as u64))
}

/// The record's name, as a part of the record: printable ASCII, and empty if it can't be read.
pub fn name(record: &[u8]) -> &[u8] {
    name_raw(record).of(record)
}

/// The name beside [`judge`]: empty where that is refused.
pub fn judged_name(record: &[u8], model: Model) -> &[u8] {
    judged_name_raw(record, model as u64).of(record)
}

/// The name beside [`renumber`] into a buffer of `room` bytes: empty where that is refused.
pub fn renumbered_name(
    record: &[u8],
    threads: u64,
    addresses: u64,
    room: usize,
    at: usize,
) -> &[u8] {
    renumbered_name_raw(record, threads, addresses, room, at as u64).of(record)
}

/// The permutation that is first one and then the other. A number above 23 moves nothing.
pub fn composite(first: u64, then: u64) -> u64 {
    // SAFETY: the function takes any two numbers.
    unsafe { archive::litmus_composite(first, then) }
}

/// The permutation that takes `q` back. A number above 23 moves nothing.
pub fn inverse(q: u64) -> u64 {
    // SAFETY: the function takes any number.
    unsafe { archive::litmus_inverse(q) }
}

/// Whether `q` is a permutation number, 0 to 23, that maps the labels below `labels` onto
/// themselves.
pub fn fits(q: u64, labels: usize) -> bool {
    // SAFETY: the function takes any two numbers.
    unsafe { archive::litmus_fits(q, labels) }
}

/// Rule 11 of orders alone: whether the order of each of the threads is irreflexive and transitive.
/// None for more threads or events than a case may have; what lies beyond the counts may be
/// anything. It is the test that [`judge`] uses, which takes all that comes after one event at once.
pub fn rule11(rows: &Rows, threads: usize, events: usize) -> Option<bool> {
    // SAFETY: the call reads a whole `Rows`, and takes any counts.
    rule11_answer(unsafe { archive::litmus_rule11(rows, threads, events) })
}

/// [`rule11`] by every three events, one after the other: slower, and proved to answer the same.
pub fn rule11_by_threes(rows: &Rows, threads: usize, events: usize) -> Option<bool> {
    // SAFETY: as in `rule11`.
    rule11_answer(unsafe { archive::litmus_rule11_by_threes(rows, threads, events) })
}

/// Whether both tests answer the same: it runs both, and is proved to be true for all rows.
pub fn rule11_tests_agree(rows: &Rows, threads: usize, events: usize) -> bool {
    // SAFETY: as in `rule11`.
    unsafe { archive::litmus_rule11_tests_agree(rows, threads, events) }
}

/// 0 or 11, or else 3.
fn rule11_answer(number: u32) -> Option<bool> {
    match number {
        0 => Some(true),
        11 => Some(false),
        _ => None,
    }
}

/// [`read`] with the library's own answer.
pub fn read_raw(record: &[u8]) -> Answer {
    // SAFETY: pointer and length are a slice's, which the call only reads.
    unsafe { archive::litmus_read(record.as_ptr(), record.len()) }
}

/// [`judge`] for any model number, with the library's own answer.
pub fn judge_raw(record: &[u8], model: u64) -> Answer {
    // SAFETY: as in `read_raw`; the model may be any number.
    unsafe { archive::litmus_judge(record.as_ptr(), record.len(), model) }
}

/// [`renumber`] for any place, with the library's own answer.
pub fn renumber_raw(
    record: &[u8],
    threads: u64,
    addresses: u64,
    out: &mut [u8],
    at: u64,
) -> Answer {
    let (start, size) = (record.as_ptr(), record.len());
    let (room_start, room) = (out.as_mut_ptr(), out.len());
    // SAFETY: both are slices, and `out` is lent alone, so they do not overlap.
    unsafe { archive::litmus_renumber(start, size, threads, addresses, room_start, room, at) }
}

/// [`name`] as a place and a length.
pub fn name_raw(record: &[u8]) -> Part {
    // SAFETY: as in `read_raw`.
    unsafe { archive::litmus_name(record.as_ptr(), record.len()) }
}

/// [`judged_name`] for any model number, as a place and a length.
pub fn judged_name_raw(record: &[u8], model: u64) -> Part {
    // SAFETY: as in `judge_raw`.
    unsafe { archive::litmus_judged_name(record.as_ptr(), record.len(), model) }
}

/// [`renumbered_name`] for any place, as a place and a length.
pub fn renumbered_name_raw(
    record: &[u8],
    threads: u64,
    addresses: u64,
    room: usize,
    at: u64,
) -> Part {
    let (start, size) = (record.as_ptr(), record.len());
    // SAFETY: as in `read_raw`; the function takes any numbers.
    unsafe { archive::litmus_renumbered_name(start, size, threads, addresses, room, at) }
}

fn done(answer: Answer) -> Result<usize, Refusal> {
    match answer.number {
        0 => Ok(answer.length as usize),
        _ => Err(answer.into()),
    }
}
