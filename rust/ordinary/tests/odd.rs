//! The quick implementation against the plain one on records on which its reader may go wrong.

use ordinary::generate::{assert_odd_came_up, odd_records};
use ordinary::judge::{judge, PPCS, PPCW};
use ordinary::tally::Tally;
use ordinary::{read, rows};

/// Compares the answers, and hands back the number of reading.
fn compare(bytes: &[u8]) -> u32 {
    let expected = read::read(bytes).map(|reading| reading.length);
    let length = rows::read(bytes).map(|case| case.length);
    assert_eq!(length, expected, "{bytes:?}");
    if let Err(refusal) = expected {
        return refusal.number;
    }
    for model in [PPCW, PPCS] {
        let quick = rows::judge(bytes, model);
        assert_eq!(quick, judge(bytes, model), "{bytes:?} under {model}");
    }
    0
}

#[test]
fn odd_records_are_read_alike() {
    let mut tally = Tally::default();
    odd_records(&mut |odd, bytes| tally.add(odd, compare(bytes)));
    println!("how often each number came up, by what is odd:\n{tally}");
    assert_odd_came_up(&tally);
}
