//! What calls are handed besides a record or a case.

use crate::permutation::{fits, COUNT};
use crate::random::Random;

/// Most of the time one that fits.
pub fn any_permutation(random: &mut Random, labels: usize) -> u64 {
    let fitting: Vec<u64> = (0..COUNT).filter(|&q| fits(q, labels)).collect();
    match random.below(8) {
        0..=5 => random.pick(&fitting),
        6 => random.below(COUNT as usize + 2) as u64,
        _ => random.any_number(),
    }
}

/// A buffer of any length and content, and a place, most often with enough room.
pub fn any_buffer(random: &mut Random, length: usize) -> (Vec<u8>, u64) {
    let room = match random.below(4) {
        0 => random.below(length + 4),
        _ => length + random.below(20),
    };
    let at = match random.below(5) {
        0 => random.any_number(),
        1 => random.below(room + 2) as u64,
        _ => random.below(room.saturating_sub(length) + 1) as u64,
    };
    (random.bytes(room), at)
}
