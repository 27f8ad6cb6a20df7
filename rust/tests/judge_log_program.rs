//! The program `judge_log`, as the gate builds it: it prints what the ordinary implementation finds
//! for the whole log, however its input comes.

#[path = "common/lines.rs"]
mod lines;
#[path = "common/program.rs"]
mod program;

use lines::lines;
use litmus::RECORD_BYTES;
use ordinary::answer::{ENDS, FORM, MISPLACED, OF_READING, RANGE, UNPRINTABLE};
use ordinary::generate::{self, any_records, pieces, refused, short_records};
use ordinary::limits::{EDITIONS, EVENTS};
use ordinary::log::{summary, Counts};
use ordinary::random::Random;
use ordinary::tally::Tally;
use ordinary::write;
use program::{ended, interrupt, piped, read_by_read, read_until_it_fails, start};
use std::ffi::OsStr;
use std::fs::{self, File};
use std::io::Write;
use std::path::Path;
use std::process::{Command, Output, Stdio};
use std::thread::sleep;
use std::time::Duration;

const PROGRAM: &str = "judge_log";

/// What it printed, without a word on standard error.
fn printed(output: Output) -> String {
    assert_eq!(String::from_utf8_lossy(&output.stderr), "");
    String::from_utf8(output.stdout).expect("text")
}

/// What it prints of a log that comes through a pipe in one piece.
fn judge_log(bytes: &[u8]) -> String {
    printed(piped(PROGRAM, &[], &[bytes], |_| ()))
}

/// A log of some bytes in a file of a test's own.
fn file(name: &str, bytes: &[u8]) -> File {
    let path = Path::new(env!("CARGO_TARGET_TMPDIR")).join(name);
    fs::write(&path, bytes).expect("it is written");
    File::open(path).expect("a file")
}

#[test]
fn an_empty_log() {
    assert_eq!(lines(b""), "0\n".repeat(12));
    assert_eq!(judge_log(b""), lines(b""));
    let output = ended(start(PROGRAM, &[], Stdio::null()));
    assert_eq!(printed(output), lines(b""));
}

/// From a file, and through a pipe in one piece, in any pieces with pauses, and in any that each
/// are one read's.
fn in_every_way(random: &mut Random, bytes: &[u8]) {
    let expected = lines(bytes);
    assert_eq!(judge_log(bytes), expected);
    let output = ended(start(PROGRAM, &[], file("any.log", bytes)));
    assert_eq!(printed(output), expected);
    let cut = pieces(random, bytes, bytes.len() / 10);
    let output = piped(PROGRAM, &[], &cut, |_| pause(random));
    assert_eq!(printed(output), expected);
    let cut = pieces(random, bytes, 3_000);
    let output = read_by_read(PROGRAM, &[], &cut, |_| ());
    assert_eq!(printed(output), expected);
}

/// A millisecond, at times.
fn pause(random: &mut Random) {
    if random.once_in(4) {
        sleep(Duration::from_millis(1));
    }
}

#[test]
fn any_log_in_any_pieces() {
    let mut random = Random::new(110);
    let mut times = Tally::default();
    for i in 0..12 {
        let mut bytes = any_records(&mut random, 1_000).concat();
        if i % 2 == 1 {
            bytes.extend(refused(&mut random, OF_READING[1 + i / 2 % 5]));
        }
        let whole = summary(&bytes, Counts::default());
        assert_eq!(whole.counts.records, 1_000);
        times.add("endings", whole.refusal.map_or(0, |refusal| refusal.number));
        times.add_log(&bytes);
        in_every_way(&mut random, &bytes);
    }
    println!("{times}");
    times.assert_logs(20);
    times.assert_each("endings", OF_READING, 1);
}

/// Each read gets a byte: 1,000 records, and fewer in front of some that are refused.
#[test]
fn byte_by_byte() {
    let mut random = Random::new(111);
    let whole = short_records(&mut random, 1_000, 400).concat();
    assert!((60_000..120_000).contains(&whole.len()), "{}", whole.len());
    let mut times = Tally::default();
    times.add_log(&whole);
    println!("{times}");
    times.assert_logs(1);
    let mut logs = vec![whole];
    for number in [ENDS, RANGE, UNPRINTABLE] {
        let mut bytes = short_records(&mut random, 20, 200).concat();
        bytes.extend(refused(&mut random, number));
        logs.push(bytes);
    }
    for bytes in logs {
        let cut: Vec<&[u8]> = bytes.chunks(1).collect();
        for run in [piped, read_by_read] {
            assert_eq!(printed(run(PROGRAM, &[], &cut, |_| ())), lines(&bytes));
        }
    }
}

/// A process that is stopped while it waits, and a read that a signal interrupts, which is no end.
#[test]
fn signals() {
    let mut random = Random::new(112);
    let records = any_records(&mut random, 40);
    let bytes = records.concat();
    let expected = lines(&bytes);
    let cut = pieces(&mut random, &bytes, bytes.len() / 12);
    assert_eq!(printed(piped(PROGRAM, &[], &cut, interrupt)), expected);
    let cut = pieces(&mut random, &bytes, 2_000);
    let output = read_by_read(PROGRAM, &[], &cut, interrupt);
    assert_eq!(printed(output), expected);
}

#[test]
fn every_truncation() {
    let mut random = Random::new(113);
    let bytes = short_records(&mut random, 10, 60).concat();
    assert!((100..600).contains(&bytes.len()), "{}", bytes.len());
    for size in 0..bytes.len() {
        let cut = &bytes[..size];
        assert_eq!(judge_log(cut), lines(cut), "{cut:?}");
    }
}

/// A refused record ends the log, and what lies behind it has no say.
#[test]
fn each_refusal() {
    let mut random = Random::new(114);
    for number in [FORM, RANGE, MISPLACED, UNPRINTABLE] {
        for count in [0, 3, 30] {
            let before = any_records(&mut random, count).concat();
            let bad = refused(&mut random, number);
            let mut log = [before, bad].concat();
            let expected = lines(&log);
            let ending = expected.lines().nth(10).expect("twelve lines");
            assert_eq!(ending, number.to_string());
            assert_eq!(judge_log(&log), expected);
            log.extend(any_records(&mut random, 200).concat());
            assert_eq!(judge_log(&log), expected);
        }
    }
}

/// A refused record is told while the input stays open, whether it comes with the records before
/// it or later, where none of them seems to be incomplete.
#[test]
fn refusals_are_told_at_once() {
    let records = short_records(&mut Random::new(117), 3, 200).concat();
    let log = [&records[..], &[0]].concat();
    let expected = lines(&log);
    assert!(expected.starts_with("3\n"), "{expected}");
    assert!(expected.ends_with(&format!("\n{RANGE}\n{}\n", records.len())));
    for pieces in [&[&log[..]][..], &[&records, &[0]]] {
        let mut child = start(PROGRAM, &[], Stdio::piped());
        let mut pipe = child.stdin.take().expect("a pipe");
        for piece in pieces {
            sleep(Duration::from_millis(20));
            pipe.write_all(piece).expect("it is written");
        }
        assert_eq!(printed(ended(child)), expected);
    }
}

/// Longer than any buffer of it.
#[test]
fn long_logs() {
    let mut random = Random::new(115);
    let full = |_| {
        let edition = random.pick(&EDITIONS);
        write::record(&generate::full(&mut random, edition, EVENTS))
    };
    let long: Vec<Vec<u8>> = (0..300).map(full).collect();
    let [first, second] = EDITIONS.map(|edition| write::record(&generate::greatest(edition)));
    let greatest = [first.repeat(9), second.repeat(9), first, second].concat();
    for bytes in [long.concat(), greatest] {
        assert!(bytes.len() > 600_000);
        let expected = lines(&bytes);
        assert!(expected.ends_with("\n0\n0\n"), "{expected}");
        assert_eq!(judge_log(&bytes), expected);
        let cut = pieces(&mut random, &bytes, 8_000);
        for run in [piped, read_by_read] {
            assert_eq!(printed(run(PROGRAM, &[], &cut, |_| ())), expected);
        }
        let short = &bytes[..bytes.len() - 1];
        assert_eq!(judge_log(short), lines(short));
    }
}

/// It prints nothing on standard output and some words on standard error.
fn complains(output: &Output) {
    assert!(output.stdout.is_empty(), "{output:?}");
    assert!(!output.stderr.is_empty(), "{output:?}");
}

/// The program, started by a shell with that redirection.
fn redirected(redirection: &str) -> Command {
    let line = format!(r#"exec "$0" {redirection}"#);
    let mut shell = Command::new("sh");
    shell.args(["-c", &line]).arg(program::path(PROGRAM));
    shell
}

/// A folder, which can be opened but not read, and no input at all.
#[test]
fn inputs_that_cannot_be_read() {
    let folder = File::open(env!("CARGO_TARGET_TMPDIR")).expect("a folder");
    complains(&ended(start(PROGRAM, &[], folder)));
    complains(&redirected("<&-").output().expect("a shell"));
}

/// A read that fails behind a few records, and behind more than it keeps without judging them.
#[test]
fn a_read_that_fails_later() {
    let mut random = Random::new(118);
    for (count, least_bytes) in [(3, 0), (800, RECORD_BYTES)] {
        let bytes = short_records(&mut random, count, 200).concat();
        assert!(bytes.len() > least_bytes, "{}", bytes.len());
        complains(&read_until_it_fails(PROGRAM, &bytes));
    }
}

#[test]
fn words() {
    let help = printed(piped(PROGRAM, &[OsStr::new("--help")], &[], |_| ()));
    assert!(help.contains(PROGRAM), "{help}");
    for words in [
        &["--list"][..],
        &["some.log"],
        &[""],
        &["some.log", "--list"],
    ] {
        let words: Vec<&OsStr> = words.iter().map(OsStr::new).collect();
        complains(&piped(PROGRAM, &words, &[], |_| ()));
    }
}

/// With nobody to read what it prints, and without a standard output, it ends.
#[test]
fn closed_outputs() {
    let bytes = any_records(&mut Random::new(116), 20).concat();
    let mut child = start(PROGRAM, &[], file("closed.log", &bytes));
    drop(child.stdout.take());
    ended(child);
    let mut shell = redirected(">&-");
    shell.stdin(file("closed.log", &bytes));
    ended(shell.spawn().expect("a shell"));
}
