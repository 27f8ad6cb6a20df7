//! Conditions of the most bytes, and an ordinary reader and evaluator of them.

use litmus::CONDITION_BYTES;
use ordinary::condition::{parse, Outcome};
use ordinary::read::read;
use std::hint::black_box;

/// Accepted under PPCw: events 2 and 5 are loads of 0, and both addresses hold 1 at the end.
pub const RECORD: &[u8] = include_bytes!("../../../../examples/dekker.litmus");

/// What the equations speak of.
pub fn outcome() -> Outcome {
    Outcome::new(&read(RECORD).expect("a record").case)
}

/// Texts by what they have most of. Whether they hold is known only at their end.
pub fn texts() -> [(&'static str, Vec<u8>); 4] {
    [
        ("equations", filled("m0=1", r" /\ ")),
        ("nesting", filled("~(~(~(~(~(~(~(~(e2=1))))))))", r" \/ ")),
        ("spaces", filled("m1    =    1    ", r"/\    ")),
        ("digits", filled("e5=4294967295", r"\/")),
    ]
}

/// The part over and over with a sign between, and spaces behind, up to the most bytes.
fn filled(part: &str, sign: &str) -> Vec<u8> {
    let count = (CONDITION_BYTES + sign.len()) / (part.len() + sign.len());
    let mut text = vec![part; count].join(sign).into_bytes();
    text.resize(CONDITION_BYTES, b' ');
    text
}

/// What a text begins with.
pub fn start(text: &[u8]) -> String {
    String::from_utf8_lossy(&text[..48]).into_owned() + " .."
}

/// Whether a text holds, by a reader that makes a tree of it; None if it is no condition.
pub fn held(text: &[u8], outcome: &Outcome) -> Option<bool> {
    let condition = black_box(parse(text, outcome).ok()?);
    Some(black_box(condition.holds(outcome)))
}
