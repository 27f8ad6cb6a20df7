//! The wrapper's own types say what the library's answers say.

use crate::both::Call;
use crate::made::{any_area, any_new, frame};
use crate::{whose, APPEND, LOG_APPEND, OF_LOGS, OF_RECORDS, RECORD};
use litmus::{area_append_raw, area_records, area_repair_raw, AppendRefusal, Area, Refusal};
use ordinary::answer::{ENDS, FLAG, ROOM, UNREPAIRED};
use ordinary::random::Random;
use ordinary::tally::Tally;
use std::error::Error;
use std::iter::FusedIterator;

const SMALL: &[u8] = include_bytes!("../../../examples/small.litmus");

/// The stores made, or the refusal and whose it is.
fn append(area: &[u8], record: &[u8], allowed: u64, times: &mut Tally) {
    let answer = area_append_raw(&mut area.to_vec(), record, allowed);
    let whose = whose(area, Call::Append(record));
    let expected = match (whose, answer.number) {
        (LOG_APPEND, _) => Err(AppendRefusal::Log(answer.into())),
        (RECORD, _) => Err(AppendRefusal::Record(answer.into())),
        (_, ROOM) => Err(AppendRefusal::NoRoom),
        (_, UNREPAIRED) => Err(AppendRefusal::Unrepaired),
        _ => Ok(answer.length as usize),
    };
    let appended = Area::new(&mut area.to_vec()).append_some(record, allowed);
    assert_eq!(appended, expected, "{record:?} in {area:?}");
    if let Err(refusal) = appended {
        assert_eq!(refusal.refusal(), answer.into());
    }
    times.add(whose, answer.number);
}

/// The stores made, or the log's fault.
fn repair(area: &[u8], allowed: u64) {
    let answer = area_repair_raw(&mut area.to_vec(), allowed);
    let expected = match answer.number {
        0 => Ok(answer.length as usize),
        _ => Err(answer.into()),
    };
    let repaired = Area::new(&mut area.to_vec()).repair_some(allowed);
    assert_eq!(repaired, expected, "{area:?}");
}

#[test]
fn typed_answers_are_the_raw_ones() {
    let mut random = Random::new(128);
    let mut times = Tally::default();
    for _ in 0..10_000 {
        let area = any_area(&mut random);
        let allowed = random.any_number();
        append(&area, &any_new(&mut random), allowed, &mut times);
        repair(&area, allowed);
    }
    println!("{times}");
    times.assert_each(LOG_APPEND, OF_LOGS, 50);
    times.assert_each(RECORD, OF_RECORDS, 50);
    times.assert_each(APPEND, [0, ROOM, UNREPAIRED], 50);
}

/// An area with room for two of the small record and ten bytes more.
#[test]
fn an_area() {
    let mut bytes = [0xFF; 50];
    let mut area = Area::new(&mut bytes);
    assert_eq!(area.append(SMALL), Ok(20));
    assert_eq!(area.append_some(SMALL, 5), Ok(5));
    assert_eq!(area.append(SMALL), Err(AppendRefusal::Unrepaired));
    assert_eq!(area.repair_some(3), Ok(3));
    assert_eq!(area.append_some(SMALL, 0), Err(AppendRefusal::Unrepaired));
    assert_eq!((area.repair(), area.repair()), (Ok(2), Ok(0)));
    assert_eq!(area.append_some(SMALL, 19), Ok(19));
    assert_eq!(area.records().count(), 1);
    assert_eq!(area.repair(), Ok(19));
    assert_eq!(area.append(&[SMALL, &[9]].concat()), Ok(20));
    assert_eq!(area.append(SMALL), Err(AppendRefusal::NoRoom));
    let frame = frame(SMALL);
    assert_eq!(area.bytes(), [&frame, &frame, &[0xFF; 10][..]].concat());
    assert!(area.records().eq([Ok(SMALL); 2]));
}

/// A refusal with a place.
fn refused(number: u32, place: usize) -> Refusal {
    let place = Some(place);
    Refusal { number, place }
}

/// Each record once, then the log's fault once, and then none for ever.
#[test]
fn records_of_an_area() {
    fn fused(area: &[u8]) -> impl FusedIterator<Item = Result<&[u8], Refusal>> {
        area_records(area)
    }
    for (behind, last) in [
        (&[][..], None),
        (&[0xFF, 7], None),
        (&[7, 0xFF], Some(Err(refused(FLAG, 20)))),
    ] {
        let area = [&frame(SMALL), behind].concat();
        let mut found = fused(&area);
        assert_eq!(found.next(), Some(Ok(SMALL)));
        assert_eq!(found.next(), last);
        assert_eq!([found.next(), found.next()], [None; 2]);
    }
    assert_eq!(area_records(&[]).next(), None);
}

/// Its words are the refusal's and whose it is, so there is no source besides.
#[test]
fn words() {
    let ends = "refused with 1: the bytes end inside a number or the name";
    let flag = "refused with 9: a frame's flag is neither 00 nor FF";
    let unrepaired = "refused with 8: bytes behind the last finished frame are not FF";
    for (refusal, text) in [
        (
            AppendRefusal::Log(refused(ENDS, 8)),
            format!("the log is {ends} (byte 8)"),
        ),
        (
            AppendRefusal::Log(refused(FLAG, 20)),
            format!("the log is {flag} (byte 20)"),
        ),
        (
            AppendRefusal::Record(refused(ENDS, 7)),
            format!("the record is {ends} (byte 7)"),
        ),
        (
            AppendRefusal::NoRoom,
            format!("refused with 6: {}", litmus::meaning(ROOM)),
        ),
        (
            AppendRefusal::Unrepaired,
            format!("{unrepaired}; a repair clears them"),
        ),
    ] {
        assert_eq!(refusal.to_string(), text);
        assert!(text.ends_with(&refusal.refusal().to_string()));
        assert!(refusal.source().is_none());
    }
}
