//! What each call answers.

use crate::limits::ADDRESSES;

/// The bytes end inside a number or the name.
pub const ENDS: u32 = 1;
/// A number has too many groups, or is not in its shortest form.
pub const FORM: u32 = 2;
/// A number is outside its range.
pub const RANGE: u32 = 3;
/// A dependency, a write order entry or a pair is not one that may stand there.
pub const MISPLACED: u32 = 4;
/// Not a permutation of the case's labels.
pub const PERMUTATION: u32 = 5;
/// Too little room in the buffer or the area.
pub const ROOM: u32 = 6;
/// No such model.
pub const MODEL: u32 = 7;
/// A byte behind the last finished frame is not `FF`.
pub const UNREPAIRED: u32 = 8;
/// A frame's flag is neither `00` nor `FF`.
pub const FLAG: u32 = 9;
/// A condition's text is outside the grammar.
pub const GRAMMAR: u32 = 21;
/// A condition is nested too deep.
pub const NESTING: u32 = 22;
/// A byte of the name is not printable.
pub const UNPRINTABLE: u32 = 23;

/// A trace's step is not enabled.
pub const DISABLED: u32 = 31;

/// Every number that reading may give.
pub const OF_READING: [u32; 6] = [0, ENDS, FORM, RANGE, MISPLACED, UNPRINTABLE];

/// Every field that does not apply is 0.
#[derive(Clone, Copy, Debug, Default, PartialEq, Eq)]
pub struct Answer {
    pub number: u32,
    pub place: usize,
    pub length: usize,
    pub finals: [u32; ADDRESSES],
}

impl Answer {
    /// Done, with the record's length, or how many stores were made.
    pub fn done(length: usize) -> Answer {
        Answer {
            length,
            ..Answer::default()
        }
    }

    /// Refused with nothing but a number.
    pub fn refused(number: u32) -> Answer {
        Answer {
            number,
            ..Answer::default()
        }
    }
}

/// A refusal of the record, or of a case or a call (then the place is 0).
#[derive(Clone, Copy, Debug, PartialEq, Eq)]
pub struct Refusal {
    pub number: u32,
    pub place: usize,
}

impl From<Refusal> for Answer {
    fn from(refusal: Refusal) -> Answer {
        Answer {
            number: refusal.number,
            place: refusal.place,
            ..Answer::default()
        }
    }
}
