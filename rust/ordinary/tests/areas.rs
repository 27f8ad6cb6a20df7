//! Worked areas.

use ordinary::area::{append, append_stores, find, repair, repair_stores};
use ordinary::Answer;

/// One thread, one address that holds 255, and no events; and its finished frame.
const SMALL: &[u8] = &[1, 1, 1, 0xFF, 1, 0, 0, 0];
const FRAME: &[u8] = &[0, 1, 1, 1, 0xFF, 1, 0, 0, 0];

/// What a call answers: its number, its place, and the stores made.
fn told(answer: Answer) -> (u32, usize, usize) {
    (answer.number, answer.place, answer.length)
}

/// The record front to back, and then the flag; without the bytes behind it.
#[test]
fn stores_of_an_append() {
    let area = [FRAME, &[0xFF; 11]].concat();
    let record = [SMALL, &[7, 7]].concat();
    let mut expected: Vec<(usize, u8)> = (10..).zip(SMALL.iter().copied()).collect();
    expected.push((9, 0));
    assert_eq!(append_stores(&area, &record), Ok(expected));
    let mut cut = area.clone();
    assert_eq!(told(append(&mut cut, &record, 8)), (0, 0, 8));
    assert_eq!(cut, [FRAME, &[0xFF], SMALL, &[0xFF; 2]].concat());
    assert_eq!(find(&cut), find(&area));
    let mut whole = area.clone();
    assert_eq!(told(append(&mut whole, &record, u64::MAX)), (0, 0, 9));
    assert_eq!(whole, [FRAME, FRAME, &[0xFF; 2]].concat());
    assert_eq!(find(&whole).records, [1..9, 10..18]);
}

/// Front to back, and none where a byte is `FF` already.
#[test]
fn stores_of_a_repair() {
    let area = [FRAME, &[0xFF], SMALL, &[0xFF, 7]].concat();
    let places = [10, 11, 12, 14, 15, 16, 17, 19];
    assert_eq!(repair_stores(&area), Ok(places.map(|p| (p, 0xFF)).to_vec()));
    let mut cut = area.clone();
    assert_eq!(told(repair(&mut cut, 4)), (0, 0, 4));
    assert_eq!(cut, [FRAME, &[0xFF; 6], &SMALL[5..], &[0xFF, 7]].concat());
    assert_eq!(told(append(&mut cut, SMALL, 3)), (8, 0, 0));
    assert_eq!(told(repair(&mut cut, 9)), (0, 0, 4));
    assert_eq!(cut, [FRAME, &[0xFF; 11]].concat());
}

/// What an append answers, and the log's own fault, which is a repair's answer too.
#[test]
fn refusals() {
    for (area, record, expected, fault) in [
        (&[][..], SMALL, (6, 0, 0), None),
        (&[0xFF; 8], SMALL, (6, 0, 0), None),
        (&[0xFF; 8], &SMALL[..7], (1, 7, 0), None),
        (FRAME, SMALL, (6, 0, 0), None),
        (&[0xFF, 7, 7, 7, 7, 7, 7, 7, 7], SMALL, (8, 0, 0), None),
        (&[0xFF, 7, 7, 7, 7, 7, 7, 7], SMALL, (6, 0, 0), None),
        (&FRAME[..8], &[], (1, 8, 0), Some((1, 8))),
        (&[0], SMALL, (1, 1, 0), Some((1, 1))),
        (&[FRAME, &[7]].concat(), &[], (9, 9, 0), Some((9, 9))),
        (&[0, 1, 9], SMALL, (3, 2, 0), Some((3, 2))),
    ] {
        let mut bytes = area.to_vec();
        assert_eq!(told(append(&mut bytes, record, 30)), expected, "{area:?}");
        assert_eq!(bytes, area);
        let found = find(area).refusal;
        assert_eq!(found.map(|found| (found.number, found.place)), fault);
        if let Some((number, place)) = fault {
            assert_eq!(told(repair(&mut bytes, 30)), (number, place, 0));
            assert_eq!(bytes, area);
        }
    }
}
