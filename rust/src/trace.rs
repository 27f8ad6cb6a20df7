//! Traces of the storage subsystem, which propagates writes and barriers to threads: its runs, step by
//! step.

mod state;
mod step;

pub use state::Propagated;
pub use step::{BarrierClass, Step, StepCondition};

use crate::{archive, Refusal, ADDRESSES, BARRIERS, LISTED, STEPS, THREADS, WRITES};
use std::fmt;

/// The number of a trace with a step that is not enabled.
const NOT_ENABLED: u32 = 31;

/// A state of the storage subsystem, as `litmus_storage` of `litmus.h`. What stands in an array
/// beyond its count is 0. Its words are lines about coherence, what has been propagated to each
/// thread, and the syncs that are not acknowledged.
#[repr(C)]
#[derive(Clone, Copy, Debug, PartialEq, Eq)]
pub struct Storage {
    /// How many threads.
    pub threads: usize,
    /// How many addresses.
    pub addresses: usize,
    /// By address, what it holds at first.
    pub initial: [u32; ADDRESSES],
    /// How many writes were accepted.
    pub writes: usize,
    /// By write, its thread.
    pub writer: [u8; WRITES],
    /// By write, where it stores.
    pub address: [u8; WRITES],
    /// By write, what it stores.
    pub value: [u32; WRITES],
    /// Bit a of `before[b]` says that write a is before write b in coherence order.
    pub before: [u64; WRITES],
    /// How many barriers were accepted.
    pub barriers: usize,
    /// By barrier, its thread.
    pub owner: [u8; BARRIERS],
    /// By barrier, 0 for a sync and 1 for an lwsync.
    pub barrier_class: [u8; BARRIERS],
    /// By barrier, 1 where it is a sync that has not been acknowledged.
    pub unacknowledged: [u8; BARRIERS],
    /// By thread, how many events have been propagated to it.
    pub listed: [usize; THREADS],
    /// Thread t's events in the order propagated, from `events[t * LISTED]` on: a write by its
    /// number, a barrier by its number and [`WRITES`] more.
    pub events: [u8; THREADS * LISTED],
}

/// What the library answers about a trace, as in `litmus.h`. Fields that do not apply are 0.
#[repr(C)]
#[derive(Clone, Copy, Debug, PartialEq, Eq)]
pub struct TraceAnswer {
    /// 0, 1 to 3, or 31 where a step is not enabled.
    pub number: u32,
    /// Under 31, which of the step's conditions fails first, from 1.
    pub condition: u32,
    /// Under 1 to 3, the byte where the faulty number starts.
    pub place: u64,
    /// Under 31, the first step that is not enabled, from 0.
    pub step: u64,
    /// Under 0, how many bytes the trace takes.
    pub length: u64,
    /// Under 0, the state after the last step.
    pub end: Storage,
}

/// What stands in a trace, as `litmus_steps` of `litmus.h`. What stands in an array beyond its count
/// is 0, and so is a field that a step's kind does not have. [`Steps::list`] gives them one by one.
#[repr(C)]
#[derive(Clone, Copy, Debug, PartialEq, Eq)]
pub struct Steps {
    /// How many threads, 1 to [`THREADS`].
    pub threads: usize,
    /// How many addresses, 1 to [`ADDRESSES`].
    pub addresses: usize,
    /// By address, what it holds at first.
    pub initial: [u32; ADDRESSES],
    /// How many steps, 0 to [`STEPS`].
    pub steps: usize,
    /// By step, [`Steps::ACCEPT_WRITE`] to [`Steps::ACKNOWLEDGE`].
    pub kind: [u8; STEPS],
    /// By step, its first field.
    pub first: [u8; STEPS],
    /// By step, its second field.
    pub second: [u8; STEPS],
    /// By step, its third field, a value.
    pub value: [u32; STEPS],
}

/// What the library answers that reads a trace, as in `litmus.h`. Fields that do not apply are 0.
#[repr(C)]
#[derive(Clone, Copy, Debug, PartialEq, Eq)]
pub struct TraceReading {
    /// 0, or 1 to 3.
    pub number: u32,
    /// Under 1 to 3, the byte where the faulty number starts.
    pub place: u64,
    /// Under 0, how many bytes the trace takes.
    pub length: u64,
    /// Under 0, what stands in the trace.
    pub steps: Steps,
}

/// What a readable trace comes to.
#[derive(Clone, Debug, PartialEq, Eq)]
pub enum Traced {
    /// Every step is enabled where it stands.
    Accepted { length: usize, end: Box<Storage> },
    /// A step is not enabled: the first such, from 0, and the first of its conditions that fails.
    NotEnabled {
        length: usize,
        step: usize,
        condition: StepCondition,
    },
}

impl fmt::Display for Traced {
    fn fmt(&self, f: &mut fmt::Formatter) -> fmt::Result {
        match self {
            Traced::Accepted { .. } => f.write_str("every step is enabled"),
            Traced::NotEnabled {
                step, condition, ..
            } => {
                write!(f, "step {step} is not enabled: {condition}")
            }
        }
    }
}

/// Runs the trace at the front, from the state in which each address holds its initial value and
/// nothing was accepted.
///
/// ```
/// use litmus::{trace, Traced};
///
/// // Two threads, one address that holds 0; thread 0 writes 1 to it, the write is propagated to
/// // thread 1, and thread 1 reads 1.
/// let mut bytes = [2, 1, 0, 3, 1, 0, 0, 1, 3, 0, 1, 6, 1, 0, 1];
/// let Ok(Traced::Accepted { length, end }) = trace(&bytes) else {
///     panic!("every step is enabled");
/// };
/// assert_eq!((length, end.writes), (15, 1));
/// assert_eq!(
///     end.to_string(),
///     "propagated to thread 0: write 0\npropagated to thread 1: write 0"
/// );
///
/// // The same, but thread 1 reads 0.
/// bytes[14] = 0;
/// assert_eq!(
///     trace(&bytes)?.to_string(),
///     "step 2 is not enabled: condition 1 on a read response fails: thread 1 reads the most recent write to address 0 that has been propagated to it, or else the initial value, and that is not 0"
/// );
///
/// // Cut short, it can't be read.
/// let refusal = trace(&bytes[..9]).unwrap_err();
/// assert_eq!((refusal.number, refusal.place), (1, Some(9)));
/// # Ok::<(), litmus::Refusal>(())
/// ```
pub fn trace(bytes: &[u8]) -> Result<Traced, Refusal> {
    let answer = trace_raw(bytes);
    match answer.number {
        0 => Ok(Traced::Accepted {
            length: answer.length as usize,
            end: Box::new(answer.end),
        }),
        NOT_ENABLED => {
            let (steps, length) = read_trace(bytes)?;
            let step = answer.step as usize;
            Ok(Traced::NotEnabled {
                length,
                step,
                condition: StepCondition {
                    step: steps.list()[step],
                    number: answer.condition,
                },
            })
        }
        number => Err(Refusal::of_bytes(number, answer.place)),
    }
}

/// What stands in the trace at the front, and how many bytes it takes. No step is judged.
pub fn read_trace(bytes: &[u8]) -> Result<(Steps, usize), Refusal> {
    let reading = read_trace_raw(bytes);
    match reading.number {
        0 => Ok((reading.steps, reading.length as usize)),
        number => Err(Refusal::of_bytes(number, reading.place)),
    }
}

/// [`trace()`] with the library's own answer.
pub fn trace_raw(bytes: &[u8]) -> TraceAnswer {
    // SAFETY: pointer and length are a slice's, which the call only reads.
    unsafe { archive::litmus_trace(bytes.as_ptr(), bytes.len()) }
}

/// [`read_trace`] with the library's own answer.
pub fn read_trace_raw(bytes: &[u8]) -> TraceReading {
    // SAFETY: as in `trace_raw`.
    unsafe { archive::litmus_trace_read(bytes.as_ptr(), bytes.len()) }
}
