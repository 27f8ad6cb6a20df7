//! A case as a struct, for programs that build cases or look into them.

use crate::{archive, Answer, CaseAnswer, Model, Refusal, Rows, Verdict};
use crate::{ADDRESSES, DEPENDENCIES, EVENTS, NAME_BYTES, RECORD_BYTES, THREADS};

/// One candidate execution, as `litmus_case` of `litmus.h`.
///
/// Threads, addresses, events and dependencies are numbered from 0. A thread's program order is the
/// order in which its events are listed. Any numbers may stand in the fields: a call refuses a case
/// for the first that may not, with 3, 4 or 23.
///
/// What stands in an array beyond its count is ignored. So are in edition 1 the dependencies and
/// their count, the address and value of a sync or lwsync, and the bits of a row from `events` on. In
/// a case that a call gives, all of that is 0.
///
/// ```
/// use litmus::{Case, Model};
///
/// // One thread stores 1 to an address and loads 1 from it.
/// let mut case = Case {
///     edition: litmus::EDITION_1.into(),
///     threads: 1,
///     addresses: 1,
///     events: 2,
///     ..Case::empty()
/// };
/// (case.kind[0], case.value[0]) = (Case::STORE, 1);
/// (case.kind[1], case.value[1]) = (Case::LOAD, 1);
/// case.rows[0] = 1 << 1; // event 0 comes before event 1
/// let verdict = case.judge(Model::PpcS).expect("a case without fault");
/// assert_eq!(verdict.to_string(), "possible: finals 1");
/// let record = case.record().expect("a case without fault");
/// assert_eq!(Case::read(&record), Ok(case));
///
/// // No kind of event has the number 9.
/// case.kind[1] = 9;
/// let refusal = case.judge(Model::PpcS).unwrap_err();
/// assert_eq!(refusal.to_string(), "refused with 3: a number is outside its range");
/// ```
#[repr(C)]
#[derive(Clone, Copy, Debug, PartialEq, Eq)]
pub struct Case {
    /// 1 or 2.
    pub edition: u64,
    /// How many threads, 1 to [`THREADS`].
    pub threads: usize,
    /// How many addresses, 1 to [`ADDRESSES`].
    pub addresses: usize,
    /// How many events, 0 to [`EVENTS`].
    pub events: usize,
    /// By address, what it holds at first.
    pub initial: [u32; ADDRESSES],
    /// By event, [`Case::LOAD`] to [`Case::SYNC`], or in edition 2 [`Case::LWSYNC`].
    pub kind: [u8; EVENTS],
    /// By event, below `threads`.
    pub thread: [u8; EVENTS],
    /// By load or store, below `addresses`.
    pub address: [u8; EVENTS],
    /// By load or store, what it loaded or stored.
    pub value: [u32; EVENTS],
    /// In edition 2, how many dependencies, 0 to [`DEPENDENCIES`]. They rise strictly: by from, then
    /// by to, then by class.
    pub dependencies: usize,
    /// By dependency, [`Case::BY_ADDRESS`] to [`Case::BY_CONTROL`].
    pub dependency_class: [u8; DEPENDENCIES],
    /// By dependency, the load that is depended on.
    pub dependency_from: [u8; DEPENDENCIES],
    /// By dependency, the event that depends on it: a load or a store listed later in the same
    /// thread, and a store where the class is data or control.
    pub dependency_to: [u8; DEPENDENCIES],
    /// The stores to address x in write order, from `writes[x * EVENTS]` on, each once.
    pub writes: [u8; ADDRESSES * EVENTS],
    /// What each thread saw in which order. Nothing is added by transitivity.
    pub rows: Rows,
    /// Printable ASCII, 32 to 126.
    pub name: [u8; NAME_BYTES],
    /// How many bytes the name has, 0 to [`NAME_BYTES`].
    pub name_length: usize,
}

impl Case {
    pub const LOAD: u8 = 0;
    pub const STORE: u8 = 1;
    pub const SYNC: u8 = 2;
    pub const LWSYNC: u8 = 3;

    pub const BY_ADDRESS: u8 = 0;
    pub const BY_DATA: u8 = 1;
    pub const BY_CONTROL: u8 = 2;

    /// All of it is 0. No record gives it, and every call refuses it.
    pub const fn empty() -> Case {
        Case {
            edition: 0,
            threads: 0,
            addresses: 0,
            events: 0,
            initial: [0; ADDRESSES],
            kind: [0; EVENTS],
            thread: [0; EVENTS],
            address: [0; EVENTS],
            value: [0; EVENTS],
            dependencies: 0,
            dependency_class: [0; DEPENDENCIES],
            dependency_from: [0; DEPENDENCIES],
            dependency_to: [0; DEPENDENCIES],
            writes: [0; ADDRESSES * EVENTS],
            rows: [0; THREADS * EVENTS],
            name: [0; NAME_BYTES],
            name_length: 0,
        }
    }

    /// The case of the record at the front.
    pub fn read(record: &[u8]) -> Result<Case, Refusal> {
        let CaseAnswer { answer, case } = Case::read_raw(record);
        match answer.number {
            0 => Ok(case),
            _ => Err(answer.into()),
        }
    }

    /// Writes the case's record into `out` from byte `at` onward, and gives its length. Under a
    /// refusal `out` stays as it was.
    pub fn write(&self, out: &mut [u8], at: usize) -> Result<usize, Refusal> {
        let answer = self.write_raw(out, at as u64);
        match answer.number {
            0 => Ok(answer.length as usize),
            _ => Err(Refusal::of_case(answer)),
        }
    }

    /// The case's record.
    pub fn record(&self) -> Result<Vec<u8>, Refusal> {
        let mut out = vec![0; RECORD_BYTES];
        let length = self.write(&mut out, 0)?;
        out.truncate(length);
        Ok(out)
    }

    /// Judges the case under a model.
    pub fn judge(&self, model: Model) -> Result<Verdict, Refusal> {
        let answer = self.judge_raw(model as u64);
        Verdict::of(answer, || self.addresses).ok_or(Refusal::of_case(answer))
    }

    /// The case with its threads and addresses renumbered by two of the 24 permutations.
    pub fn renumber(&self, threads: u64, addresses: u64) -> Result<Case, Refusal> {
        let CaseAnswer { answer, case } = self.renumber_raw(threads, addresses);
        match answer.number {
            0 => Ok(case),
            _ => Err(Refusal::of_case(answer)),
        }
    }

    /// The case of the [`representative`](crate::representative): of the case and all its
    /// renumberings the one with the least record.
    pub fn representative(&self) -> Result<Case, Refusal> {
        let CaseAnswer { answer, case } = self.representative_raw();
        match answer.number {
            0 => Ok(case),
            _ => Err(Refusal::of_case(answer)),
        }
    }

    /// [`Case::read`] with the library's own answer.
    pub fn read_raw(record: &[u8]) -> CaseAnswer {
        // SAFETY: pointer and length are a slice's, which the call only reads.
        unsafe { archive::litmus_case_read(record.as_ptr(), record.len()) }
    }

    /// [`Case::write`] for any place, with the library's own answer.
    pub fn write_raw(&self, out: &mut [u8], at: u64) -> Answer {
        // SAFETY: pointer and length are a slice's, which is lent alone; the case is a copy.
        unsafe { archive::litmus_case_write(*self, out.as_mut_ptr(), out.len(), at) }
    }

    /// [`Case::judge`] for any model number, with the library's own answer.
    pub fn judge_raw(&self, model: u64) -> Answer {
        // SAFETY: the function takes any case and any number.
        unsafe { archive::litmus_case_judge(*self, model) }
    }

    /// [`Case::renumber`] with the library's own answer.
    pub fn renumber_raw(&self, threads: u64, addresses: u64) -> CaseAnswer {
        // SAFETY: the function takes any case and any numbers.
        unsafe { archive::litmus_case_renumber(*self, threads, addresses) }
    }

    /// [`Case::representative`] with the library's own answer.
    pub fn representative_raw(&self) -> CaseAnswer {
        // SAFETY: the function takes any case.
        unsafe { archive::litmus_case_representative(*self) }
    }
}
