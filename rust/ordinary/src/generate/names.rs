//! Names: printable ones, and ones with bytes that may not stand there.

use crate::answer::{Refusal, UNPRINTABLE};
use crate::case::Case;
use crate::limits::{EDITIONS, NAME, PRINTABLE};
use crate::random::Random;
use crate::read::read;

/// Any name, most often a short one.
pub fn any_name(random: &mut Random) -> Vec<u8> {
    let most = if random.once_in(4) { NAME } else { 3 };
    let length = random.below(most + 1);
    let (least, greatest) = PRINTABLE.into_inner();
    let byte = |_| random.from_to(least.into(), greatest.into()) as u8;
    (0..length).map(byte).collect()
}

/// The name, or another one if it is empty, with one or two bytes that are not printable.
pub fn unprintable_name(random: &mut Random, name: &[u8]) -> Vec<u8> {
    let mut name = name.to_vec();
    while name.is_empty() {
        name = any_name(random);
    }
    for _ in 0..random.from_to(1, 2) {
        let at = random.pick(&places(name.len()));
        name[at] = unprintable_byte(random);
    }
    name
}

/// Often one next to the printable ones, or the greatest.
fn unprintable_byte(random: &mut Random) -> u8 {
    let (least, greatest) = PRINTABLE.into_inner();
    match random.below(6) {
        0 => least - 1,
        1 => greatest + 1,
        2 => u8::MAX,
        3 => random.below(least.into()) as u8,
        _ => random.from_to((greatest + 1).into(), u8::MAX.into()) as u8,
    }
}

/// The first, middle and last place of so many bytes.
fn places(length: usize) -> Vec<usize> {
    let mut places = vec![0, length / 2, length - 1];
    places.dedup();
    places
}

/// Accepted cases of every edition, with every byte at the first, middle and last place of names of
/// some lengths. The other bytes of the name are printable.
pub fn every_byte_of_a_name() -> impl Iterator<Item = Case> {
    let lengths = EDITIONS.map(|edition| [1, 2, 3, NAME].map(|length| (edition, length)));
    lengths.into_iter().flatten().flat_map(|(edition, length)| {
        let mut case = Case::empty(2, 2);
        case.edition = edition;
        case.initial = vec![7, 8];
        case.name = vec![*PRINTABLE.start(); length];
        let bytes = |at| (0..=u8::MAX).map(move |byte| (at, byte));
        let all = places(length).into_iter().flat_map(bytes);
        all.map(move |(at, byte)| {
            let mut case = case.clone();
            case.name[at] = byte;
            case
        })
    })
}

/// The bytes with printable ones in place of those that reading refuses in their name.
pub fn printable(bytes: &[u8]) -> Vec<u8> {
    let mut bytes = bytes.to_vec();
    while let Err(Refusal {
        number: UNPRINTABLE,
        place,
    }) = read(&bytes)
    {
        bytes[place] = *PRINTABLE.start();
    }
    bytes
}
