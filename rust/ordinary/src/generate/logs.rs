//! Logs, and the pieces that they come in.

use super::{any_case, damaged, full, off};
use crate::judge::{verdict, PPCS};
use crate::limits::{EDITIONS, EVENTS};
use crate::random::Random;
use crate::read::read;
use crate::write;
use std::iter::repeat_with;

/// So many records of both editions. A few have the most events.
pub fn any_records(random: &mut Random, count: usize) -> Vec<Vec<u8>> {
    let mut record = |_| {
        let edition = random.pick(&EDITIONS);
        let case = match random.below(60) {
            0 => full(random, edition, EVENTS),
            1 => {
                let case = full(random, edition, EVENTS);
                off(random, case)
            }
            _ => any_case(random),
        };
        write::record(&case)
    };
    (0..count).map(&mut record).collect()
}

/// So many records of both editions, each shorter than `below` bytes.
pub fn short_records(random: &mut Random, count: usize, below: usize) -> Vec<Vec<u8>> {
    let any = repeat_with(|| write::record(&any_case(random)));
    let short = any.filter(|record| record.len() < below);
    short.take(count).collect()
}

/// A record with that verdict under PPCs.
pub fn record_of(random: &mut Random, number: u32) -> Vec<u8> {
    loop {
        let case = any_case(random);
        if verdict(&case, PPCS) == number {
            return write::record(&case);
        }
    }
}

/// Some bytes that reading refuses with that number. But for 1, any bytes may follow.
pub fn refused(random: &mut Random, number: u32) -> Vec<u8> {
    loop {
        let case = any_case(random);
        let bytes = damaged(random, &case);
        let refused = read(&bytes).is_err_and(|refusal| refusal.number == number);
        if refused && !bytes.is_empty() {
            return bytes;
        }
    }
}

/// The bytes in pieces of 1 to `most`.
pub fn pieces<'a>(random: &mut Random, bytes: &'a [u8], most: usize) -> Vec<&'a [u8]> {
    let mut pieces = Vec::new();
    let mut rest = bytes;
    while !rest.is_empty() {
        let size = random.from_to(1, most.min(rest.len()));
        let (piece, behind) = rest.split_at(size);
        pieces.push(piece);
        rest = behind;
    }
    pieces
}
