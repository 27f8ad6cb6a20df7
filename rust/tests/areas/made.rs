//! Random areas, and what is appended to them.

use ordinary::area::{self, BLANK, FINISHED};
use ordinary::generate::{any_case, any_record, damaged, short_records};
use ordinary::random::Random;

/// A record of either edition, most often a short one, at times with bytes behind it.
pub fn new_record(random: &mut Random) -> Vec<u8> {
    let below = random.pick(&[40, 40, 40, 80, 400]);
    let mut record = short_records(random, 1, below).concat();
    if random.once_in(4) {
        let behind = random.below(6);
        record.extend(random.bytes(behind));
    }
    record
}

/// The finished frame of a record, or of any bytes.
pub fn frame(record: &[u8]) -> Vec<u8> {
    [&[FINISHED], record].concat()
}

/// So many finished frames.
pub fn frames(random: &mut Random, count: usize) -> Vec<u8> {
    let records = short_records(random, count, 60);
    records.iter().flat_map(|record| frame(record)).collect()
}

/// An area without fault, or as often one that most likely has one.
pub fn any_area(random: &mut Random) -> Vec<u8> {
    match random.once_in(2) {
        true => sound(random),
        false => faulty(random),
    }
}

/// Some finished frames and room behind them, which a cut append may have left in use.
fn sound(random: &mut Random) -> Vec<u8> {
    let count = random.below(4);
    let mut area = frames(random, count);
    let room = random.pick(&[0, 1, 20, 60, 200]);
    area.resize(area.len() + random.below(room + 1), BLANK);
    let allowed = random.below(30) as u64;
    if random.once_in(2) {
        area::append(&mut area, &new_record(random), allowed);
    }
    area
}

/// Most likely a log with a fault of its own.
fn faulty(random: &mut Random) -> Vec<u8> {
    let mut area = sound(random);
    match random.below(6) {
        0 => change_a_flag(random, &mut area),
        1 => area.truncate(random.below(area.len() + 1)),
        2 => {
            let size = random.below(40);
            area = random.bytes(size);
        }
        3 => change_a_byte(random, &mut area),
        _ => {
            let case = any_case(random);
            let end = area::find(&area).end;
            area.splice(end..end, frame(&damaged(random, &case)));
        }
    }
    area
}

/// Of a finished frame or of the first that is not.
fn change_a_flag(random: &mut Random, area: &mut [u8]) {
    let found = area::find(area);
    let mut flags: Vec<usize> = found
        .records
        .iter()
        .map(|record| record.start - 1)
        .collect();
    flags.push(found.end);
    let flag = random.pick(&flags);
    if let Some(byte) = area.get_mut(flag) {
        *byte = random.byte();
    }
}

fn change_a_byte(random: &mut Random, area: &mut [u8]) {
    let at = random.below(area.len().max(1));
    if let Some(byte) = area.get_mut(at) {
        *byte = random.byte();
    }
}

/// A record as it may be handed in: most likely one, or damaged, or any bytes.
pub fn any_new(random: &mut Random) -> Vec<u8> {
    match random.below(4) {
        0 => any_record(random),
        1 => {
            let case = any_case(random);
            damaged(random, &case)
        }
        _ => new_record(random),
    }
}
