//! Traces that tests write as texts.

use ordinary::storage::trace_bytes;
use ordinary::text::trace::parse;

/// The bytes of a trace, of which the lines behind the first are given.
pub fn bytes(lines: &str) -> Vec<u8> {
    let text = format!("trace\n{lines}");
    trace_bytes(&parse(&text).unwrap_or_else(|fault| panic!("{fault}: {text}")))
}
