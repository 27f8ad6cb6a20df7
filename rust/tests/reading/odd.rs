//! Records on which a reader goes from a quick way to the exact one: answers agree, and so do whole
//! cases where there are any.

use super::built::built;
use super::common::plain;
use litmus::{judge_raw, read_raw, Case};
use ordinary::generate::{assert_odd_came_up, odd_records};
use ordinary::judge::{judge, PPCS, PPCW};
use ordinary::tally::{model_name, Tally};
use ordinary::{read, Answer};

/// Reads and judges with both and compares all that they give. Counts the verdicts, and hands back the
/// number of reading.
fn compare(bytes: &[u8], verdicts: &mut Tally) -> u32 {
    let reading = read::read(bytes);
    let expected = match &reading {
        Ok(reading) => Answer::done(reading.length),
        Err(refusal) => (*refusal).into(),
    };
    assert_eq!(plain(read_raw(bytes)), expected, "{bytes:?}");
    let Ok(reading) = reading else {
        assert_eq!(plain(judge_raw(bytes, PPCS)), expected, "{bytes:?}");
        return expected.number;
    };
    assert_eq!(Case::read(bytes), Ok(built(&reading.case)), "{bytes:?}");
    for model in [PPCW, PPCS] {
        let answer = judge(bytes, model);
        assert_eq!(plain(judge_raw(bytes, model)), answer, "{bytes:?} {model}");
        verdicts.add(model_name(model), answer.number);
    }
    0
}

#[test]
fn odd_records_are_read_alike() {
    let (mut tally, mut verdicts) = (Tally::default(), Tally::default());
    odd_records(&mut |odd, bytes| tally.add(odd, compare(bytes, &mut verdicts)));
    println!("how often each number came up, by what is odd:\n{tally}");
    println!("and each verdict where they can be read:\n{verdicts}");
    assert_odd_came_up(&tally);
    // All rules are broken in the tests of judging.
    for model in [PPCW, PPCS] {
        verdicts.assert_each(model_name(model), [0, 11, 12, 13, 15, 16], 100);
    }
}
