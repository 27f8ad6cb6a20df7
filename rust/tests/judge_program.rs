//! The program `judge`, as the gate builds it: what it says of a record that can't be read, that
//! nothing it prints upsets a terminal, and that it says the same however its input comes.

#[path = "common/program.rs"]
mod program;

use litmus::RECORD_BYTES;
use ordinary::generate::{any_records, pieces, short_records};
use ordinary::limits::EDITIONS;
use ordinary::random::Random;
use ordinary::tally::{stated_edition, Tally};
use program::{interrupt, piped, read_by_read, read_until_it_fails};
use std::ffi::OsStr;
use std::fs;
use std::os::unix::ffi::OsStrExt;
use std::path::PathBuf;
use std::process::Output;

/// One thread stores 1 and loads 1, and the name has the given bytes from byte 18 on.
fn named(name: &[u8]) -> Vec<u8> {
    let mut record = vec![1, 1, 1, 0, 2, 1, 0, 0, 1, 0, 0, 0, 1, 0, 1, 0, 1];
    record.push(name.len() as u8);
    record.extend(name);
    record
}

/// What `judge` printed, which must be printable but for line ends.
fn printed(output: Output) -> String {
    let output = output.stdout;
    for &byte in &output {
        assert!(byte == b'\n' || (32..=126).contains(&byte), "{output:?}");
    }
    String::from_utf8(output).expect("it is printable")
}

/// What `judge` prints.
fn judge(words: &[&OsStr], input: &[u8]) -> String {
    printed(piped("judge", words, &[input], |_| ()))
}

/// A log of both editions that is longer than a buffer, in pieces of any length; a short one, byte
/// by byte.
#[test]
fn any_pieces() {
    let mut random = Random::new(120);
    for (most, count, least_bytes) in [(1, 60, 1_000), (3_000, 400, 200_000)] {
        let records = match most {
            1 => short_records(&mut random, count, 100),
            _ => any_records(&mut random, count),
        };
        let mut times = Tally::default();
        for record in &records {
            times.add("records", stated_edition(record));
        }
        times.assert_each("records", EDITIONS, 5);
        let bytes = records.concat();
        assert!(bytes.len() > least_bytes, "{}", bytes.len());
        let whole = judge(&[], &bytes);
        let end = format!("Records judged: {}\n\n", records.len());
        assert!(whole.ends_with(&end), "{whole}");
        for run in [piped, read_by_read] {
            let cut = pieces(&mut random, &bytes, most);
            assert_eq!(printed(run("judge", &[], &cut, |_| ())), whole);
        }
    }
}

/// A read that a signal interrupts is no end of the input.
#[test]
fn signals() {
    let mut random = Random::new(121);
    let bytes = any_records(&mut random, 12).concat();
    let whole = judge(&[], &bytes);
    let cut = pieces(&mut random, &bytes, 1_000);
    for run in [piped, read_by_read] {
        assert_eq!(printed(run("judge", &[], &cut, interrupt)), whole);
    }
}

/// Where a read fails it says so, and has answered the records that are surely whole: from their
/// start on there are as many bytes as a record may have.
#[test]
fn a_read_that_fails() {
    let mut random = Random::new(122);
    for (count, least) in [(3, 0), (800, 100)] {
        let records = short_records(&mut random, count, 200);
        let bytes = records.concat();
        let mut left = bytes.len();
        let mut answered = 0;
        while left >= RECORD_BYTES {
            left -= records[answered].len();
            answered += 1;
        }
        assert!(answered >= least, "{answered}");
        let output = read_until_it_fails("judge", &bytes);
        assert!(!output.stderr.is_empty());
        let found = printed(output);
        let end = match answered {
            0 => "No record: the input is empty.\n\n".to_string(),
            _ => format!("End of the input. Records judged: {answered}\n\n"),
        };
        assert_eq!(found + &end, judge(&[], &records[..answered].concat()));
    }
}

/// Values are printed with all their digits.
#[test]
fn the_greatest_value_is_printed() {
    let greatest = [0xff, 0xff, 0xff, 0xff, 0xf];
    let front: &[u8] = &[1, 1, 2, 7, 0, 1, 1, 0, 1];
    let record = [front, &greatest, &[0, 0, 0]].concat();
    let printed = judge(&[], &record);
    let finals = "accepted; final values: 7 at address 0, 4294967295 at address 1\n";
    for model in ["PPCw", "PPCs"] {
        let line = format!("  {model}     {finals}");
        assert!(printed.contains(&line), "{printed}");
    }
}

/// A record that is refused ends the input: its number, its place in the input and what it means.
#[test]
fn a_refused_record_ends_the_input() {
    let first = named(b"first");
    let short = named(b"")[..4].to_vec();
    let mut unlisted = named(b"");
    unlisted[13] = 1;
    let refused = [
        (short, 4, "1", "the bytes end inside"),
        (vec![0x81, 0], 0, "2", "a number has too many groups"),
        (vec![0x81; 5], 0, "2", "a number has too many groups"),
        (vec![3], 0, "3", "a number is outside its range"),
        (unlisted, 13, "4", "a dependency is unfit, a write order"),
        (named(b"a\x1b[1m"), 19, "23", "a byte of the name is not"),
    ];
    for (record, place, number, words) in refused {
        let behind = if number == "1" { &[] } else { &first[..] };
        let printed = judge(&[], &[&first[..], &record, behind].concat());
        let place = first.len() + place;
        let line = format!("\n  refused  number {number} at byte {place}: {words}");
        assert!(printed.contains(&line), "{printed}");
        assert!(printed.contains("record 1: first\n"), "{printed}");
        assert!(!printed.contains("record 3"), "{printed}");
    }
}

/// Every byte as the second of a name: a name is printed as it stands, or nothing of it.
#[test]
fn names_are_printed_as_they_stand() {
    for byte in 0..=255u8 {
        let printed = judge(&[], &named(&[b'\\', byte, b'z']));
        let refused = printed.contains("refused  number 23 at byte 19:");
        let shown = format!("record 1: \\{}z\n", char::from(byte));
        let printable = (32..=126).contains(&byte);
        assert_eq!(refused, !printable, "{byte}: {printed}");
        assert_eq!(printed.starts_with(&shown), printable, "{byte}: {printed}");
    }
}

/// A file may be called anything that is text.
#[test]
fn paths_are_escaped() {
    let folder = PathBuf::from(env!("CARGO_TARGET_TMPDIR"));
    let path = folder.join(OsStr::from_bytes(b"\x1b[1m\\\xc3\xbf"));
    fs::write(&path, named(b"z")).expect("a file");
    let printed = judge(&[path.as_os_str()], b"");
    assert!(
        printed.contains("/\\x1b[1m\\\\\\xc3\\xbf\n\nrecord 1: z\n"),
        "{printed}"
    );
    fs::remove_file(path).expect("the file");
}

// A file is opened by a name that is text: any other name is told on the standard error, and the next file is judged.
#[test]
fn paths_are_text() {
    let folder = PathBuf::from(env!("CARGO_TARGET_TMPDIR"));
    let odd = folder.join(OsStr::from_bytes(b"odd\xff"));
    let path = folder.join("behind_odd");
    fs::write(&odd, named(b"y")).expect("a file");
    fs::write(&path, named(b"z")).expect("a file");
    let printed = judge(&[odd.as_os_str(), path.as_os_str()], b"");
    assert!(!printed.contains("record 1: y"), "{printed}");
    assert!(printed.contains("record 1: z\n"), "{printed}");
    fs::remove_file(odd).expect("the file");
    fs::remove_file(path).expect("the file");
}
