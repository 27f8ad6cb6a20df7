//! The program `area`.

#[path = "common/command.rs"]
mod command;

use command::{examples, folder, run};
use litmus::Refusal;
use ordinary::answer::{ENDS, FLAG, FORM, MISPLACED, OF_READING, RANGE, UNPRINTABLE};
use ordinary::generate::{any_records, refused, short_records};
use ordinary::random::Random;
use ordinary::read;
use std::ffi::OsStr;
use std::fs;
use std::io::Write;
use std::path::Path;
use std::process::{Command, Output, Stdio};
use std::thread::sleep;
use std::time::{Duration, Instant};

const PROGRAM: &str = env!("CARGO_BIN_EXE_area");

/// Longer than anything takes that does not hang.
const LONG: Duration = Duration::from_secs(20);

const UNREPAIRED: &str =
    "behind the last finished frame lie unfinished bytes; 'area repair' clears them";

fn expect(folder: &Path, words: &[&str], bytes: &[u8], expected: (&str, &str, i32)) {
    command::expect(PROGRAM, folder, words, bytes, expected);
}

fn example(name: &str) -> Vec<u8> {
    fs::read(examples().join(name)).expect("a record")
}

/// The records in finished frames.
fn frames(records: &[impl AsRef<[u8]>]) -> Vec<u8> {
    let records = records.iter().map(AsRef::as_ref);
    records.flat_map(|record| [&[0], record].concat()).collect()
}

/// An area that begins with some bytes.
fn area(front: &[u8], size: usize) -> Vec<u8> {
    let mut bytes = vec![0xff; size];
    bytes[..front.len()].copy_from_slice(front);
    bytes
}

/// What a refusal with a place says.
fn words_of(number: u32, place: usize) -> String {
    let place = Some(place);
    Refusal { number, place }.to_string()
}

/// The file `a` holds these bytes.
fn holds(folder: &Path, bytes: &[u8]) {
    assert_eq!(fs::read(folder.join("a")).expect("an area"), bytes);
}

fn hold(folder: &Path, bytes: &[u8]) {
    fs::write(folder.join("a"), bytes).expect("it is written");
}

/// The records of `a` back to back.
fn gives(folder: &Path, records: &[Vec<u8>]) {
    let output = run(PROGRAM, folder, &["records", "a"].map(OsStr::new), b"");
    assert!(output.status.success() && output.stdout == records.concat());
}

#[test]
fn keeps_records() {
    let folder = folder("area_records");
    let nameless = vec![1, 1, 1, 0, 0, 0, 0];
    let records = [example("dekker.litmus"), nameless, example("small.litmus")];
    fs::write(folder.join("dekker"), [&records[0][..], b"behind"].concat()).expect("a file");
    expect(&folder, &["new", "a", "200"], b"", ("", "", 0));
    holds(&folder, &[0xff; 200]);
    let line = "end at byte 0: 200 bytes free\n";
    expect(&folder, &["list", "a"], b"", (line, "", 0));
    let lines = "\
        appended Dekker, 77 bytes, at byte 0\n\
        appended (no name), 7 bytes, at byte 78\n\
        appended a, 19 bytes, at byte 86\n";
    let words = ["append", "a", "dekker", "-"];
    expect(&folder, &words, &records[1..].concat(), (lines, "", 0));
    holds(&folder, &area(&frames(&records), 200));
    let lines = "\
        byte 0: 77 bytes, Dekker\n\
        byte 78: 7 bytes, (no name)\n\
        byte 86: 19 bytes, a\n\
        end at byte 106: 94 bytes free\n";
    expect(&folder, &["list", "a"], b"", (lines, "", 0));
    gives(&folder, &records);
    expect(&folder, &["append", "a", "-"], b"", ("", "", 0));
    let line = "cleared 0 bytes\n";
    expect(&folder, &["repair", "a"], b"", (line, "", 0));
    holds(&folder, &area(&frames(&records), 200));
}

fn line_count(output: &Output) -> usize {
    String::from_utf8_lossy(&output.stdout).lines().count()
}

/// In files and on standard input.
#[test]
fn keeps_any_records() {
    let mut random = Random::new(120);
    let folder = folder("area_any_records");
    let records = any_records(&mut random, 200);
    let whole = frames(&records);
    let size = whole.len() + random.below(3);
    let (first, second) = records.split_at(20);
    let files: Vec<String> = (0..first.len()).map(|f| format!("{f}.litmus")).collect();
    for (file, record) in files.iter().zip(first) {
        fs::write(folder.join(file), record).expect("it is written");
    }
    expect(&folder, &["new", "a", &size.to_string()], b"", ("", "", 0));
    let front = ["append", "a"].into_iter();
    let words: Vec<&OsStr> = front
        .chain(files.iter().map(String::as_str))
        .chain(["-"])
        .map(OsStr::new)
        .collect();
    let output = run(PROGRAM, &folder, &words, &second.concat());
    assert!(output.status.success() && output.stderr.is_empty());
    assert_eq!(line_count(&output), records.len());
    holds(&folder, &area(&whole, size));
    gives(&folder, &records);
}

/// Waits until the file `a` holds these bytes.
fn holds_soon(folder: &Path, bytes: &[u8]) {
    let start = Instant::now();
    while fs::read(folder.join("a")).expect("an area") != bytes {
        assert!(start.elapsed() < LONG, "it does not append");
        sleep(Duration::from_millis(1));
    }
}

/// Each as soon as it is whole, while the input stays open.
#[test]
fn appends_records_as_they_come() {
    let folder = folder("area_pieces");
    hold(&folder, &[0xff; 20_000]);
    let records = short_records(&mut Random::new(121), 20, 400);
    let mut command = Command::new(PROGRAM);
    command.args(["append", "a", "-"]).current_dir(&folder);
    command.stdin(Stdio::piped()).stdout(Stdio::piped());
    let mut child = command.spawn().expect("it starts");
    let mut input = child.stdin.take().expect("a pipe");
    let log = records.concat();
    let (mut sent, mut whole) = (0, 0);
    for (i, record) in records.iter().enumerate() {
        whole += record.len();
        // It comes with the first byte of the next one.
        let piece = sent..log.len().min(whole + 1);
        sent = piece.end;
        input.write_all(&log[piece]).expect("it reads");
        holds_soon(&folder, &area(&frames(&records[..=i]), 20_000));
    }
    drop(input);
    let output = child.wait_with_output().expect("it ends");
    assert!(output.status.success());
    assert_eq!(line_count(&output), records.len());
}

#[test]
fn makes_no_file_that_is_there() {
    let folder = folder("area_new");
    fs::write(folder.join("a"), b"mine").expect("it is written");
    let errors = "a: File exists (os error 17)\n";
    expect(&folder, &["new", "a", "4"], b"", ("", errors, 1));
    holds(&folder, b"mine");
    let errors = "no/folder: No such file or directory (os error 2)\n";
    expect(&folder, &["new", "no/folder", "4"], b"", ("", errors, 1));
}

#[test]
fn an_area_without_bytes() {
    let folder = folder("area_empty");
    let small = example("small.litmus");
    expect(&folder, &["new", "a", "0"], b"", ("", "", 0));
    let errors = no_room(1, 0);
    expect(&folder, &["append", "a", "-"], &small, ("", &errors, 1));
    for (command, line) in [
        ("list", "end at byte 0: 0 bytes free\n"),
        ("repair", "cleared 0 bytes\n"),
        ("records", ""),
    ] {
        expect(&folder, &[command, "a"], b"", (line, "", 0));
    }
    holds(&folder, b"");
}

/// What is said of a record of 19 bytes on standard input.
fn no_room(record: usize, free: usize) -> String {
    let words = "no room: it takes 20 bytes with its flag";
    format!("a: standard input, record {record} can't be appended: {words}, and {free} are free\n")
}

/// The flag takes a byte, too.
#[test]
fn an_area_that_is_filled() {
    let folder = folder("area_filled");
    let small = example("small.litmus");
    let two = frames(&[&small, &small]);
    for (size, count) in [(39, 1), (40, 2), (59, 2)] {
        hold(&folder, &vec![0xff; size]);
        let lines = [0, 20].map(|place| format!("appended a, 19 bytes, at byte {place}\n"));
        let free = size - 20 * count;
        let errors = no_room(count + 1, free);
        let printed = lines[..count].concat();
        let input = small.repeat(3);
        expect(
            &folder,
            &["append", "a", "-"],
            &input,
            (&printed, &errors, 1),
        );
        holds(&folder, &area(&two[..20 * count], size));
        let lines = [0, 20].map(|place| format!("byte {place}: 19 bytes, a\n"));
        let end = format!("end at byte {}: {free} bytes free\n", 20 * count);
        let printed = lines[..count].concat() + &end;
        expect(&folder, &["list", "a"], b"", (&printed, "", 0));
    }
}

/// What appends that were cut leave, and anything else behind the last finished frame.
#[test]
fn unfinished_bytes() {
    let mut random = Random::new(122);
    let folder = folder("area_unfinished");
    let small = example("small.litmus");
    let first = frames(&[&small]);
    let mut dirt: Vec<Vec<u8>> = (1..20)
        .map(|cut| [&[0xff], &small[..cut]].concat())
        .collect();
    dirt.extend((0..10).map(|_| [&[0xff; 7], &random.bytes(20)[..], &[0]].concat()));
    for dirt in dirt {
        let bytes = area(&[&first[..], &dirt].concat(), 60);
        hold(&folder, &bytes);
        let errors = format!("a: standard input, record 1 can't be appended: {UNREPAIRED}\n");
        expect(&folder, &["append", "a", "-"], &small, ("", &errors, 1));
        let count = dirt.iter().filter(|&&byte| byte != 0xff).count();
        let end = format!("{count} of them not FF: 'area repair' clears these");
        let lines = format!("byte 0: 19 bytes, a\nend at byte 20: 40 bytes free, {end}\n");
        expect(&folder, &["list", "a"], b"", (&lines, "", 0));
        holds(&folder, &bytes);
        for cleared in [count, 0] {
            let line = format!("cleared {cleared} bytes\n");
            expect(&folder, &["repair", "a"], b"", (&line, "", 0));
            holds(&folder, &area(&first, 60));
        }
        let line = "appended a, 19 bytes, at byte 20\n";
        expect(&folder, &["append", "a", "-"], &small, (line, "", 0));
    }
}

/// Whatever is asked for, its place is from the area's start, and nothing changes.
#[test]
fn faults_of_the_log() {
    let mut random = Random::new(123);
    let folder = folder("area_faults");
    let small = example("small.litmus");
    let first = frames(&[&small]);
    let numbers = [FLAG, ENDS, FORM, RANGE, MISPLACED, UNPRINTABLE];
    for number in numbers.repeat(5) {
        let (frame, place) = match number {
            FLAG => (vec![random.from_to(1, 0xfe) as u8], 20),
            _ => {
                let bad = refused(&mut random, number);
                let refusal = read::read(&bad).expect_err("a refusal");
                ([&[0], &bad[..]].concat(), 21 + refusal.place)
            }
        };
        // No bytes behind the frame: these could go on with it.
        let bytes = [&first[..], &frame].concat();
        hold(&folder, &bytes);
        let errors = format!("a: {}\n", words_of(number, place));
        let words: [(&[&str], &str); 4] = [
            (&["append", "a", "-"], ""),
            (&["repair", "a"], ""),
            (&["list", "a"], "byte 0: 19 bytes, a\n"),
            (
                &["records", "a"],
                std::str::from_utf8(&small).expect("7 bits"),
            ),
        ];
        for (words, printed) in words {
            expect(&folder, words, &small, (printed, &errors, 1));
        }
        holds(&folder, &bytes);
    }
}

/// The records before are appended.
#[test]
fn faults_of_records() {
    let mut random = Random::new(124);
    let folder = folder("area_bad_records");
    let small = example("small.litmus");
    fs::write(folder.join("small"), &small).expect("it is written");
    let line = "appended a, 19 bytes, at byte 0\n";
    for number in OF_READING.into_iter().filter(|&number| number != 0) {
        let bad = refused(&mut random, number);
        let place = read::read(&bad).expect_err("a refusal").place;
        let fault = words_of(number, place);
        fs::write(folder.join("bad"), &bad).expect("it is written");
        hold(&folder, &[0xff; 60]);
        let errors = format!("bad: {fault}\n");
        let words = ["append", "a", "small", "bad", "small"];
        expect(&folder, &words, b"", (line, &errors, 1));
        hold(&folder, &[0xff; 60]);
        let errors = format!("standard input, record 2: {fault}\n");
        let input = [&small[..], &bad].concat();
        expect(&folder, &["append", "a", "-"], &input, (line, &errors, 1));
        holds(&folder, &area(&frames(&[&small]), 60));
    }
}

#[test]
fn files_that_are_not_there() {
    let folder = folder("area_no_files");
    hold(&folder, &[0xff; 60]);
    let calls: [(&[&str], &str); 6] = [
        (&["append", "none", "a"], "none"),
        (&["append", "a", "none"], "none"),
        (&["append", "a", "a b\n\\"], "a\\x20b\\x0a\\\\"),
        (&["repair", "none"], "none"),
        (&["list", "none"], "none"),
        (&["records", "none"], "none"),
    ];
    for (words, file) in calls {
        let errors = format!("{file}: No such file or directory (os error 2)\n");
        expect(&folder, words, b"", ("", &errors, 1));
    }
    let errors = ".: Is a directory (os error 21)\n";
    for command in ["repair", "list", "records"] {
        expect(&folder, &[command, "."], b"", ("", errors, 1));
    }
    holds(&folder, &[0xff; 60]);
}

#[test]
fn helps() {
    let folder = folder("area_help");
    let help = run(PROGRAM, &folder, &[OsStr::new("--help")], b"");
    assert!(help.status.success() && help.stderr.is_empty());
    let help = String::from_utf8(help.stdout).expect("text");
    assert!(help.starts_with("usage: area new FILE SIZE\n"));
    assert!(help.lines().all(|line| line.len() <= 79), "{help}");
    let wrong_calls: [&[&str]; 16] = [
        &[],
        &["a"],
        &["new"],
        &["new", "a"],
        &["new", "a", "ten"],
        &["new", "a", "-1"],
        &["new", "a", "4", "5"],
        &["append", "a"],
        &["append", "a", "--all"],
        &["repair"],
        &["repair", "a", "b"],
        &["list"],
        &["list", "--long", "a"],
        &["list", "--long"],
        &["records", "a", "b"],
        &["clear", "a"],
    ];
    for words in wrong_calls {
        expect(&folder, words, b"", ("", &help, 2));
    }
    assert!(!folder.join("a").exists());
}
