//! Conditions in text on final memory and loaded values.

mod fault;

pub use fault::TextFault;

use crate::{archive, judge_raw, Answer, Case, Finals, Model, Refusal, Rule, Verdict, ADDRESSES};
use std::fmt;

const RANGE: u32 = 3;
const GRAMMAR: u32 = 21;
const NESTING: u32 = 22;

/// What the library answers about a condition, as in `litmus.h`. Fields that do not apply are 0.
#[repr(C)]
#[derive(Clone, Copy, Debug, Default, PartialEq, Eq)]
pub struct ConditionAnswer {
    /// As judging gives it; and where that is 0, the text's 3, 21 or 22.
    pub number: u32,
    /// Where the fault lies, in the record or in the text.
    pub place: u64,
    /// As judging gives it; of a faulty text 0.
    pub length: u64,
    /// As judging gives them; of a faulty text all 0.
    pub finals: [u32; ADDRESSES],
    /// Under 0, 1 where the condition holds.
    pub holds: u32,
}

impl ConditionAnswer {
    fn judged(self) -> Answer {
        Answer {
            number: self.number,
            place: self.place,
            length: self.length,
            finals: self.finals,
        }
    }
}

/// What a condition comes to for a readable record, or a case without fault.
#[derive(Clone, Copy, Debug, PartialEq, Eq)]
pub enum Asked {
    /// Every rule of the model holds: the execution is possible, and the condition holds for it or
    /// does not.
    Accepted {
        length: usize,
        finals: Finals,
        holds: bool,
    },
    /// A rule is broken; the text was not looked at.
    Broken { length: usize, rule: Rule },
}

impl Asked {
    /// Whether the execution is possible and the condition holds for it.
    pub fn holds(self) -> bool {
        matches!(self, Asked::Accepted { holds: true, .. })
    }

    /// What an answer says of a case, as [`Verdict::of`].
    fn of(answer: ConditionAnswer, addresses: impl FnOnce() -> usize) -> Option<Asked> {
        let verdict = Verdict::of(answer.judged(), addresses)?;
        Some(match verdict {
            Verdict::Accepted { length, finals } => Asked::Accepted {
                length,
                finals,
                holds: answer.holds != 0,
            },
            Verdict::Broken { length, rule } => Asked::Broken { length, rule },
        })
    }
}

impl fmt::Display for Asked {
    fn fmt(&self, f: &mut fmt::Formatter) -> fmt::Result {
        match self {
            Asked::Accepted { holds: true, .. } => f.write_str("holds"),
            Asked::Accepted { holds: false, .. } => f.write_str("does not hold"),
            Asked::Broken { rule, .. } => write!(f, "not possible: {rule}"),
        }
    }
}

/// Why a condition was not answered. Its words say whose fault it is, and show where in the text it
/// lies.
#[derive(Clone, Debug, PartialEq, Eq)]
pub enum ConditionRefusal {
    /// The record's or the case's own, as judging refuses it: 1 to 4 or 23.
    Case(Refusal),
    /// The text's: 3, 21 or 22.
    Text(TextFault),
}

impl ConditionRefusal {
    /// Of an answer that is a refusal. A 3 is the text's where judging accepts the case.
    fn of(
        answer: ConditionAnswer,
        text: &[u8],
        refusal: impl FnOnce(Answer) -> Refusal,
        accepted: impl FnOnce() -> bool,
    ) -> ConditionRefusal {
        let of_text = match answer.number {
            GRAMMAR | NESTING => true,
            RANGE => accepted(),
            _ => false,
        };
        match of_text {
            true => {
                let place = answer.place as usize;
                ConditionRefusal::Text(TextFault::new(answer.number, place, text))
            }
            false => ConditionRefusal::Case(refusal(answer.judged())),
        }
    }
}

impl fmt::Display for ConditionRefusal {
    fn fmt(&self, f: &mut fmt::Formatter) -> fmt::Result {
        match self {
            ConditionRefusal::Case(refusal) => write!(f, "the case is {refusal}"),
            ConditionRefusal::Text(fault) => write!(f, "the text is {fault}"),
        }
    }
}

impl std::error::Error for ConditionRefusal {}

/// Whether a condition holds for the record at the front, judged under a model.
///
/// `m0=1` says that address 0 holds 1 at the end, `e2=0` that event 2, a load, holds 0. A condition
/// is terms joined by `\/`, a term is factors joined by `/\`, and a factor is `~` and a factor, a
/// condition in brackets, or an equation. Spaces may stand before, between and after tokens, but not
/// within `m0` or `e2`.
///
/// ```
/// use litmus::{condition, Model};
///
/// // One thread stores 1 to an address and loads 1 from it.
/// let record = [1, 1, 1, 0, 2, 1, 0, 0, 1, 0, 0, 0, 1, 0, 1, 0, 1, 1, 97];
/// let asked = condition(&record, Model::PpcS, br"m0=1 /\ ~(e1=0 \/ e1=2)")?;
/// assert!(asked.holds());
/// assert_eq!(condition(&record, Model::PpcS, b"e1=0")?.to_string(), "does not hold");
///
/// let refusal = condition(&record, Model::PpcS, br"m0=1 /\ e=1").unwrap_err();
/// assert_eq!(
///     refusal.to_string(),
///     r"the text is refused with 21: the number of a load has to follow e at once (byte 9)
///     m0=1 /\ e=1
///              ^"
/// );
/// # Ok::<(), litmus::ConditionRefusal>(())
/// ```
pub fn condition(record: &[u8], model: Model, text: &[u8]) -> Result<Asked, ConditionRefusal> {
    let answer = condition_raw(record, model as u64, text);
    let accepted = || judge_raw(record, model as u64).number == 0;
    Asked::of(answer, || crate::addresses(record))
        .ok_or_else(|| ConditionRefusal::of(answer, text, Refusal::from, accepted))
}

/// [`condition`] for any model number, with the library's own answer.
pub fn condition_raw(record: &[u8], model: u64, text: &[u8]) -> ConditionAnswer {
    let (start, size) = (record.as_ptr(), record.len());
    // SAFETY: both are slices, which the call only reads; the model may be any number.
    unsafe { archive::litmus_condition(start, size, model, text.as_ptr(), text.len()) }
}

impl Case {
    /// Whether a [`condition`](crate::condition) holds for the case, judged under a model.
    pub fn condition(&self, model: Model, text: &[u8]) -> Result<Asked, ConditionRefusal> {
        let answer = self.condition_raw(model as u64, text);
        let accepted = || self.judge_raw(model as u64).number == 0;
        Asked::of(answer, || self.addresses)
            .ok_or_else(|| ConditionRefusal::of(answer, text, Refusal::of_case, accepted))
    }

    /// [`Case::condition`] for any model number, with the library's own answer.
    pub fn condition_raw(&self, model: u64, text: &[u8]) -> ConditionAnswer {
        // SAFETY: pointer and length are a slice's, which the call only reads; the case is a copy.
        unsafe { archive::litmus_case_condition(*self, model, text.as_ptr(), text.len()) }
    }
}
