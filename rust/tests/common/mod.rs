//! What the differential tests share.

use ordinary::Answer;

/// The library's answer in the other implementation's type.
pub fn plain(answer: litmus::Answer) -> Answer {
    Answer {
        number: answer.number,
        place: answer.place as usize,
        length: answer.length as usize,
        finals: answer.finals,
    }
}
