//! Areas: wherever an append or a repair is cut, its answer and the bytes of the area are those of
//! the ordinary implementation, and no finished frame is lost.

#[path = "areas/both.rs"]
mod both;
mod common;
#[path = "areas/in_turn.rs"]
mod in_turn;
#[path = "areas/made.rs"]
mod made;
#[path = "areas/typed.rs"]
mod typed;

use both::{compare, every_cut, found, frame, plainly_found, Call};
use litmus::Refusal;
use made::{any_area, any_new, frames, new_record};
use ordinary::answer::{ENDS, FLAG, FORM, MISPLACED, RANGE, ROOM, UNPRINTABLE, UNREPAIRED};
use ordinary::area::{find, repair_stores, BLANK, FINISHED};
use ordinary::generate::{self, short_records};
use ordinary::limits::EDITIONS;
use ordinary::random::Random;
use ordinary::tally::{edition_name, stated_edition, Tally};
use ordinary::{read, write, Answer};

/// A record's faults, and a log's.
const OF_RECORDS: [u32; 5] = [ENDS, FORM, RANGE, MISPLACED, UNPRINTABLE];
const OF_LOGS: [u32; 6] = [ENDS, FORM, RANGE, MISPLACED, FLAG, UNPRINTABLE];

/// Headings: how far a call got, whose fault it met, and what stands at a place.
const APPEND: &str = "appending";
const REPAIR: &str = "repairing";
const CUT_APPEND: &str = "appends that were whole, cut";
const CUT_REPAIR: &str = "repairs that were whole, cut";
const LOG_APPEND: &str = "the log's fault, appending";
const LOG_REPAIR: &str = "the log's fault, repairing";
const RECORD: &str = "the record's fault";
const ENDED: &str = "the log ends";
const STANDS: &str = "a finished frame stands there";

/// Whose answer a call on an area gives.
fn whose(area: &[u8], call: Call) -> &'static str {
    match (find(area).refusal, call) {
        (Some(_), Call::Append(_)) => LOG_APPEND,
        (Some(_), Call::Repair) => LOG_REPAIR,
        (None, Call::Append(record)) if read::read(record).is_err() => RECORD,
        (None, Call::Append(_)) => APPEND,
        (None, Call::Repair) => REPAIR,
    }
}

/// Every cut of a call that is not refused, and then it is made with some allowance.
fn grow(random: &mut Random, area: &mut [u8], times: &mut Tally) {
    let record = new_record(random);
    let (call, cut) = match random.once_in(3) {
        true => (Call::Repair, CUT_REPAIR),
        false => (Call::Append(&record), CUT_APPEND),
    };
    let heading = whose(area, call);
    let all = match call.stores(area) {
        Ok(_) => every_cut(area, call),
        Err(_) => 0,
    };
    let allowed = match random.once_in(2) {
        true => random.below(all + 1) as u64,
        false => random.pick(&[1 << 32, 1 << 63, u64::MAX]),
    };
    let answer = compare(area, call, allowed);
    times.add(heading, answer.number);
    if all > 0 {
        times.add(cut, u32::from(answer.length < all));
    }
    if heading == APPEND {
        times.add(edition_name(stated_edition(&record)), answer.number);
    }
}

/// Areas that grow from all `FF` by appends and repairs, any of which may be cut.
#[test]
fn every_cut_of_growing_areas() {
    let mut random = Random::new(120);
    let mut times = Tally::default();
    for _ in 0..300 {
        let mut area = vec![BLANK; random.from_to(0, 500)];
        for _ in 0..20 {
            grow(&mut random, &mut area, &mut times);
        }
    }
    println!("{times}");
    times.assert_each(APPEND, [0, ROOM, UNREPAIRED], 200);
    times.assert_each(REPAIR, [0], 200);
    times.assert_each(CUT_APPEND, [0, 1], 200);
    times.assert_each(CUT_REPAIR, [0, 1], 100);
    for edition in EDITIONS {
        times.assert_each(edition_name(edition), [0, ROOM, UNREPAIRED], 100);
    }
}

/// The greatest record of each edition, behind others and to the area's last byte: appended, and
/// repaired where only its flag is missing. Some of its bytes are `FF` and need no store.
#[test]
fn every_cut_of_the_greatest_records() {
    let mut random = Random::new(121);
    for edition in EDITIONS {
        let record = write::record(&generate::greatest(edition));
        let mut area = frames(&mut random, 3);
        area.resize(area.len() + 1 + record.len(), BLANK);
        let stores = every_cut(&area, Call::Append(&record));
        assert_eq!(stores, record.len() + 1);
        compare(&mut area, Call::Append(&record), record.len() as u64);
        let stores = every_cut(&area, Call::Repair);
        let blank = record.iter().filter(|&&byte| byte == BLANK);
        assert_eq!(stores, record.len() - blank.count());
    }
}

/// A repair by so few stores at a time that it takes many calls. Until it is done, appending is
/// refused with 8.
fn repair_by_and_by(random: &mut Random, area: &mut [u8], record: &[u8]) -> usize {
    let kept: Vec<Vec<u8>> = plainly_found(area).iter().map(|r| r.to_vec()).collect();
    let mut left = repair_stores(area).expect("no fault").len();
    let mut calls = 0;
    while left > 0 {
        let refused = Answer::refused(UNREPAIRED);
        assert_eq!(compare(area, Call::Append(record), u64::MAX), refused);
        assert_eq!(every_cut(area, Call::Repair), left);
        let allowed = random.below(left.min(9) + 1);
        let made = compare(area, Call::Repair, allowed as u64).length;
        assert_eq!(made, allowed);
        assert_eq!(found(area).0, kept);
        left -= made;
        calls += 1;
    }
    calls
}

/// After cut appends, and after cut repairs. The room is used again then.
#[test]
fn repairs_that_are_cut_again_and_again() {
    let mut random = Random::new(122);
    let mut times = Tally::default();
    for _ in 0..300 {
        let mut area = frames(&mut random, 2);
        let record = short_records(&mut random, 1, 80).concat();
        let next = short_records(&mut random, 1, 80).concat();
        area.resize(area.len() + 100, BLANK);
        for _ in 0..3 {
            let allowed = random.below(record.len() + 1);
            compare(&mut area, Call::Append(&record), allowed as u64);
            let calls = repair_by_and_by(&mut random, &mut area, &next);
            times.add("cut repairs, more than two", u32::from(calls > 2));
        }
        let answer = compare(&mut area, Call::Append(&next), u64::MAX);
        assert_eq!(answer, Answer::done(next.len() + 1));
        assert_eq!(found(&area).0.last(), Some(&&next[..]));
        assert_eq!(found(&area).0.len(), 3);
    }
    println!("{times}");
    times.assert_each("cut repairs, more than two", [1], 500);
}

/// Appends the records to an area of that size, which all but perhaps the last one fit, and hands
/// back the area.
fn appended(size: usize, records: &[Vec<u8>]) -> Vec<u8> {
    let mut area = vec![BLANK; size];
    let mut taken = 0;
    for (i, record) in (1..).zip(records) {
        let frame = record.len() + 1;
        let expected = match taken + frame <= size {
            true => Answer::done(frame),
            false => Answer::refused(ROOM),
        };
        let answer = compare(&mut area, Call::Append(record), u64::MAX);
        assert_eq!(answer, expected);
        assert!(answer.number == 0 || i == records.len());
        taken += answer.length;
    }
    area
}

/// Areas that are a byte short of some records, that they fill, and that have a byte more. One that
/// is filled to its last byte ends the log there.
#[test]
fn areas_filled_to_the_last_byte() {
    let mut random = Random::new(123);
    for i in 0..150 {
        let records = short_records(&mut random, 1 + i % 3, 60);
        let fit = records.concat().len() + records.len();
        for size in [fit - 1, fit, fit + 1] {
            let mut area = appended(size, &records);
            let taken = records.len() - usize::from(size < fit);
            assert_eq!(found(&area), (slices(&records[..taken]), None));
            assert_eq!(compare(&mut area, Call::Repair, u64::MAX), Answer::done(0));
            let more = new_record(&mut random);
            let answer = compare(&mut area, Call::Append(&more), u64::MAX);
            assert!(size < fit || answer == Answer::refused(ROOM));
        }
    }
}

fn slices(records: &[Vec<u8>]) -> Vec<&[u8]> {
    records.iter().map(Vec::as_slice).collect()
}

/// A record, none, and one that is refused.
const FEW_RECORDS: [&[u8]; 3] = [
    include_bytes!("../../examples/small.litmus"),
    &[],
    &[1, 1, 9],
];

/// Every call on an area of a few bytes, and what ends its log.
fn few_bytes(area: &[u8]) -> (u32, u64) {
    let appends = FEW_RECORDS.map(Call::Append);
    for call in appends.into_iter().chain([Call::Repair]) {
        for allowed in [0, 1, u64::MAX] {
            compare(&mut area.to_vec(), call, allowed);
        }
    }
    let first = frame(area, 0);
    assert!(first.ended);
    (first.number, first.place)
}

/// Areas of no bytes, of each one, and of each two.
#[test]
fn the_least_areas() {
    assert_eq!(few_bytes(&[]), (0, 0));
    for byte in 0..=u8::MAX {
        let expected = match byte {
            BLANK => (0, 0),
            FINISHED => (ENDS, 1),
            _ => (FLAG, 0),
        };
        assert_eq!(few_bytes(&[byte]), expected);
        for next in 0..=u8::MAX {
            few_bytes(&[byte, next]);
        }
    }
    for area in [&mut [][..], &mut [BLANK]] {
        let [record, none, bad] = FEW_RECORDS.map(|record| {
            let answer = compare(area, Call::Append(record), u64::MAX);
            (answer.number, answer.place)
        });
        assert_eq!((record, none, bad), ((ROOM, 0), (ENDS, 0), (RANGE, 2)));
    }
}

/// What is found, by both.
fn compare_found(area: &[u8]) {
    let fault = find(area).refusal.map(|fault| Refusal {
        number: fault.number,
        place: Some(fault.place),
    });
    assert_eq!(found(area), (plainly_found(area), fault), "{area:?}");
}

/// Areas with bytes and flags changed, with records cut or damaged, and any bytes at all; and such
/// records.
#[test]
fn damaged_areas_and_records() {
    let mut random = Random::new(125);
    let mut times = Tally::default();
    for _ in 0..30_000 {
        let area = any_area(&mut random);
        let record = any_new(&mut random);
        let allowed = random.any_number();
        compare_found(&area);
        for call in [Call::Append(&record), Call::Repair] {
            let mut changed = area.clone();
            let answer = compare(&mut changed, call, allowed);
            times.add(whose(&area, call), answer.number);
            compare_found(&changed);
        }
    }
    println!("{times}");
    times.assert_each(LOG_APPEND, OF_LOGS, 100);
    times.assert_each(LOG_REPAIR, OF_LOGS, 100);
    times.assert_each(RECORD, OF_RECORDS, 100);
    times.assert_each(APPEND, [0, ROOM, UNREPAIRED], 500);
    times.assert_each(REPAIR, [0], 500);
}

/// What stands at each place of areas, where a frame begins or not, and past their ends.
#[test]
fn every_place() {
    let mut random = Random::new(126);
    let mut times = Tally::default();
    for _ in 0..4_000 {
        let area = any_area(&mut random);
        let size = area.len() as u64;
        for at in 0..size {
            let frame = frame(&area, at);
            times.add(if frame.ended { ENDED } else { STANDS }, frame.number);
        }
        for past in [size, size + 1, 1 << 32, 1 << 63, u64::MAX - 1, u64::MAX] {
            let frame = frame(&area, past);
            assert!(frame.ended && frame.number == 0, "{past} of {area:?}");
        }
    }
    println!("{times}");
    times.assert_each(ENDED, OF_LOGS.into_iter().chain([0]), 100);
    times.assert_each(STANDS, [0], 1_000);
}
