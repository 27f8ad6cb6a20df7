//! How much a case or a trace may hold. Every limit stands here and nowhere else.

use crate::case::{Class, Kind};
use crate::storage::Step;
use std::ops::RangeInclusive;

/// The first edition: no lwsyncs and no dependencies.
pub const FIRST: u32 = 1;
/// The second edition, which has both.
pub const SECOND: u32 = 2;
/// Every edition.
pub const EDITIONS: [u32; 2] = [FIRST, SECOND];
/// Most threads.
pub const THREADS: usize = 4;
/// Most addresses.
pub const ADDRESSES: usize = 4;
/// Most events.
pub const EVENTS: usize = 64;
/// Most dependencies.
pub const DEPENDENCIES: usize = 96;
/// Greatest value.
pub const VALUE: u32 = u32::MAX;
/// Most bytes of a name.
pub const NAME: usize = 32;
/// The bytes that may stand in a name: what prints in ASCII.
pub const PRINTABLE: RangeInclusive<u8> = 32..=126;
/// Most groups of seven bits in a number.
pub const GROUPS: usize = 5;

/// Most bytes of a condition's text.
pub const TEXT: usize = 512;
/// How deep a condition may be nested, counting `~` and brackets.
pub const DEPTH: usize = 16;

/// Greatest count of a log's records.
pub const COUNT: u32 = u32::MAX;

/// Most steps of a trace.
pub const STEPS: usize = 128;
/// Most writes that a trace's steps accept.
pub const WRITES: usize = 16;
/// Most barriers that they accept.
pub const BARRIERS: usize = 8;
/// Most entries of a thread's list: each write and each barrier once.
pub const LISTED: usize = WRITES + BARRIERS;

/// Labels that a permutation moves: threads or addresses.
pub const LABELS: usize = if THREADS > ADDRESSES {
    THREADS
} else {
    ADDRESSES
};

/// The greatest record of an edition, in bytes.
pub const fn most_bytes(edition: u32) -> usize {
    let head = size(edition as usize) + size(THREADS) + size(ADDRESSES);
    let value = size(VALUE as usize);
    let event = size(Kind::ALL.len() - 1) + size(THREADS - 1) + size(ADDRESSES - 1) + value;
    let order = size(EVENTS * EVENTS) + EVENTS * EVENTS * 2 * size(EVENTS - 1);
    head + ADDRESSES * value
        + size(EVENTS)
        + EVENTS * event
        + links(edition)
        + THREADS * order
        + size(NAME)
        + NAME
}

/// The greatest trace, in bytes: all its steps are read responses with the greatest value.
pub const fn most_trace_bytes() -> usize {
    let value = size(VALUE as usize);
    let step = size(Step::KINDS) + size(THREADS - 1) + size(ADDRESSES - 1) + value;
    size(THREADS) + size(ADDRESSES) + ADDRESSES * value + size(STEPS) + STEPS * step
}

/// The most bytes of dependencies and write orders.
const fn links(edition: u32) -> usize {
    if edition == FIRST {
        return EVENTS * size(EVENTS - 1);
    }
    // A dependency takes more bytes than an entry of a write order, so all of them are there. They
    // start at loads, which stand in no write order.
    let from_one_load = Class::ALL.len() * (EVENTS - 1);
    let loads = DEPENDENCIES.div_ceil(from_one_load);
    let dependency = size(Class::ALL.len() - 1) + 2 * size(EVENTS - 1);
    size(DEPENDENCIES) + DEPENDENCIES * dependency + (EVENTS - loads) * size(EVENTS - 1)
}

/// The bytes of a number, seven bits to a byte.
const fn size(number: usize) -> usize {
    if number < 128 {
        1
    } else {
        1 + size(number / 128)
    }
}
