//! Worked logs, those of the definitions' table.

use ordinary::limits::COUNT;
use ordinary::log::{summary, Counts};

/// One thread stores 1 and loads 1: accepted.
const SMALL: [u8; 19] = [1, 1, 1, 0, 2, 1, 0, 0, 1, 0, 0, 0, 1, 0, 1, 0, 1, 1, 97];
/// In edition 2, a load alone holds 2: rule 15.
const LONE: [u8; 13] = [2, 2, 1, 0, 1, 0, 0, 0, 2, 0, 0, 0, 0];
/// Events but no order: rule 12.
const UNORDERED: [u8; 16] = [1, 1, 1, 0, 2, 1, 0, 0, 1, 0, 0, 0, 1, 0, 0, 0];
/// A store before a load of 0 in another thread's order: rule 16, under PPCs alone.
const STRONG: [u8; 19] = [1, 2, 1, 0, 2, 0, 0, 0, 0, 1, 1, 0, 1, 1, 0, 1, 1, 0, 0];

/// The small record with another byte at a place.
fn small_with(at: usize, byte: u8) -> Vec<u8> {
    let mut record = SMALL.to_vec();
    record[at] = byte;
    record
}

/// Holds a log on top of other counts to what is printed of it.
fn expect(parts: &[&[u8]], counts: Counts, printed: [u64; 12]) {
    let found = summary(&parts.concat(), counts);
    assert_eq!(found.list(), printed, "{parts:?}");
}

#[test]
fn whole_logs() {
    let zeros = Counts::default();
    let lost = small_with(12, 0);
    expect(&[], zeros, [0; 12]);
    expect(
        &[&SMALL, &lost, &LONE, &SMALL, &UNORDERED],
        zeros,
        [5, 2, 0, 1, 0, 0, 1, 1, 0, 0, 0, 0],
    );
    expect(
        &[&STRONG, &SMALL],
        zeros,
        [2, 1, 0, 0, 0, 0, 0, 1, 0, 0, 0, 0],
    );
}

/// Each refusal ends the log, whatever lies behind it.
#[test]
fn refused_records() {
    for (refused, number, place) in [
        (&SMALL[..5], 1, 24),
        (&[&[128, 0], &SMALL[..]].concat(), 2, 19),
        (&[&[1, 5], &SMALL[..]].concat(), 3, 20),
        (&[&small_with(13, 1), &SMALL[..]].concat(), 4, 32),
        (&[&small_with(18, 10), &SMALL[..]].concat(), 23, 37),
    ] {
        let printed = [1, 1, 0, 0, 0, 0, 0, 0, 0, 0, number, place];
        expect(&[&SMALL, refused], Counts::default(), printed);
    }
}

/// A count that can't grow ends the log, and the record is left out.
#[test]
fn full_counts() {
    let many_12 = |records, accepted, count| Counts {
        records,
        accepted,
        broken: [0, count, 0, 0, 0, 0, 0, 0],
    };
    let most = u64::from(COUNT);
    for (parts, counts, printed) in [
        (
            &[&SMALL[..]][..],
            many_12(COUNT - 1, 0, COUNT - 1),
            [most, 1, 0, most - 1, 0, 0, 0, 0, 0, 0, 0, 0],
        ),
        (
            &[&SMALL, &SMALL],
            many_12(COUNT, 0, COUNT),
            [most, 0, 0, most, 0, 0, 0, 0, 0, 0, 6, 0],
        ),
        (
            &[&SMALL, &UNORDERED, &SMALL],
            many_12(7, 0, COUNT),
            [8, 1, 0, most, 0, 0, 0, 0, 0, 0, 6, 0],
        ),
        (
            &[&UNORDERED, &SMALL],
            many_12(7, COUNT, 0),
            [8, most, 0, 1, 0, 0, 0, 0, 0, 0, 6, 0],
        ),
    ] {
        expect(parts, counts, printed);
    }
}
