//! Answers about conditions.

use litmus::ConditionAnswer;
use ordinary::condition::Asked;

/// The other implementation's answer in the library's type.
pub fn raw(asked: Asked) -> ConditionAnswer {
    ConditionAnswer {
        number: asked.answer.number,
        place: asked.answer.place as u64,
        length: asked.answer.length as u64,
        finals: asked.answer.finals,
        holds: asked.holds.into(),
    }
}
