//! Records that differ only in the labels of threads and addresses, and which record is the lesser.
//!
//! The class of a record is the record and all its renumberings, by every two permutations that
//! fit. The least of them, compared byte by byte, is the class's representative.

use crate::{archive, Answer, Choice, Refusal, RECORD_BYTES};

/// Which of two records.
#[derive(Clone, Copy, Debug, PartialEq, Eq)]
pub enum Lesser {
    First,
    Second,
}

/// The representative of the class of the record at the front: of the record and all its
/// renumberings the least, compared byte by byte. It is as long as the record, and the
/// representative of itself.
///
/// ```
/// use litmus::{representative, same_class};
///
/// // Thread 1 stores 7 to the one address; thread 0 has no events. The record's name is "a".
/// let record = [1, 2, 1, 0, 1, 1, 1, 0, 7, 0, 0, 0, 1, 97];
/// // In the least record thread 0 stores it.
/// let least = [1, 2, 1, 0, 1, 1, 0, 0, 7, 0, 0, 0, 1, 97];
/// assert_eq!(representative(&record).as_deref(), Ok(&least[..]));
/// assert_eq!(same_class(&record, &least), Ok(true));
///
/// // With another value it is another case.
/// let mut other = least;
/// other[8] = 8;
/// assert_eq!(same_class(&record, &other), Ok(false));
/// ```
pub fn representative(record: &[u8]) -> Result<Vec<u8>, Refusal> {
    let mut out = vec![0; RECORD_BYTES];
    let length = write_representative(record, &mut out, 0)?;
    out.truncate(length);
    Ok(out)
}

/// Writes the [`representative`] into `out` from byte `at` onward, and gives its length. Under a
/// refusal `out` stays as it was.
pub fn write_representative(record: &[u8], out: &mut [u8], at: usize) -> Result<usize, Refusal> {
    crate::done(representative_raw(record, out, at as u64))
}

/// Whether two records are of one class, which is whether one is a renumbering of the other: they
/// are the same but for the labels of threads and addresses. Where neither can be read, the refusal
/// is the first one's.
pub fn same_class(first: &[u8], second: &[u8]) -> Result<bool, Refusal> {
    Ok(representative(first)? == representative(second)?)
}

/// The lesser of two records, compared byte by byte, without the bytes behind it: the first where
/// they are equal. None if one of them can't be read.
pub fn lesser<'a>(first: &'a [u8], second: &'a [u8]) -> Option<&'a [u8]> {
    let choice = compared_raw(first, second);
    let chosen = match which(choice)? {
        Lesser::First => first,
        Lesser::Second => second,
    };
    Some(&chosen[..choice.length as usize])
}

/// Which of two records is the [`lesser`].
pub fn compared(first: &[u8], second: &[u8]) -> Option<Lesser> {
    which(compared_raw(first, second))
}

fn which(choice: Choice) -> Option<Lesser> {
    match choice.which {
        1 => Some(Lesser::First),
        2 => Some(Lesser::Second),
        _ => None,
    }
}

/// [`write_representative`] for any place, with the library's own answer.
pub fn representative_raw(record: &[u8], out: &mut [u8], at: u64) -> Answer {
    let (start, size) = (record.as_ptr(), record.len());
    let (room_start, room) = (out.as_mut_ptr(), out.len());
    // SAFETY: both are slices, and `out` is lent alone, so they do not overlap.
    unsafe { archive::litmus_representative(start, size, room_start, room, at) }
}

/// [`compared`] with the library's own answer.
pub fn compared_raw(first: &[u8], second: &[u8]) -> Choice {
    let (start, size) = (first.as_ptr(), first.len());
    // SAFETY: both are slices, which the call only reads.
    unsafe { archive::litmus_lesser(start, size, second.as_ptr(), second.len()) }
}
