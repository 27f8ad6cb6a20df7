//! The program `classes`.

#[path = "common/command.rs"]
mod command;

use command::{examples, folder, run};
use ordinary::generate::{self, relabelled};
use ordinary::random::Random;
use ordinary::{representative, write};
use std::ffi::OsStr;
use std::fs;
use std::os::unix::ffi::OsStrExt;
use std::path::Path;
use std::process::Output;

const PROGRAM: &str = env!("CARGO_BIN_EXE_classes");

fn classes(folder: &Path, words: &[&OsStr], bytes: &[u8]) -> Output {
    run(PROGRAM, folder, words, bytes)
}

fn expect(folder: &Path, words: &[&str], bytes: &[u8], expected: (&str, &str, i32)) {
    command::expect(PROGRAM, folder, words, bytes, expected);
}

#[test]
fn groups_what_was_filed_twice() {
    let files = ["message.litmus", "dekker.litmus", "message-swapped.litmus"];
    let lines = "message: message.litmus message-swapped.litmus\nDekker: dekker.litmus\n";
    expect(&examples(), &files, b"", (lines, "", 0));
    let dekker = fs::read(examples().join("dekker.litmus")).expect("a record");
    let behind = [&dekker[..], b"and more"].concat();
    let files = ["small.litmus", "-", "dekker.litmus", "dekker.litmus"];
    let lines = "a: small.litmus\nDekker: - dekker.litmus dekker.litmus\n";
    expect(&examples(), &files, &behind, (lines, "", 0));
}

/// The examples, of which one alone was filed twice.
#[test]
fn groups_the_examples() {
    let table = fs::read_to_string(examples().join("answers.txt")).expect("a table");
    let lines = table.lines().filter(|line| !line.starts_with('#'));
    let names = lines.filter_map(|line| line.split_whitespace().next());
    let files: Vec<String> = names.map(|name| format!("{name}.litmus")).collect();
    let words: Vec<&OsStr> = files.iter().map(OsStr::new).collect();
    let output = classes(&examples(), &words, b"");
    assert!(output.status.success() && output.stderr.is_empty());
    let printed = String::from_utf8(output.stdout).expect("text");
    assert_eq!(printed.lines().count(), files.len() - 1, "{printed}");
    let twice = "message: message.litmus message-swapped.litmus";
    assert!(printed.lines().any(|line| line == twice), "{printed}");
}

/// Cases filed once or more under any labels, in any order, each with a name of its own.
#[test]
fn groups_any_records() {
    let mut random = Random::new(90);
    let folder = folder("any_records");
    let mut filed = Vec::new();
    for i in 0..20 {
        let mut case = generate::tied(&mut random);
        case.name = format!("case {i}").into_bytes();
        for _ in 0..random.from_to(1, 4) {
            filed.push((i, write::record(&relabelled(&mut random, &case))));
        }
    }
    random.shuffle(&mut filed);
    let mut lines: Vec<(usize, String)> = Vec::new();
    let files: Vec<String> = (0..filed.len()).map(|f| format!("{f}.litmus")).collect();
    for (file, (i, record)) in files.iter().zip(&filed) {
        fs::write(folder.join(file), record).expect("it is written");
        match lines.iter_mut().find(|(case, _)| case == i) {
            Some((_, line)) => *line += &format!(" {file}"),
            None => lines.push((*i, format!("case {i}: {file}"))),
        }
    }
    let expected: String = lines.iter().map(|(_, line)| format!("{line}\n")).collect();
    let words: Vec<&str> = files.iter().map(String::as_str).collect();
    expect(&folder, &words, b"", (&expected, "", 0));
}

/// The others are still grouped.
#[test]
fn says_what_is_wrong() {
    let folder = folder("bad_files");
    let small = fs::read(examples().join("small.litmus")).expect("a record");
    let mut unprintable = small.clone();
    unprintable[18] = b'\n';
    for (file, bytes) in [
        ("small", &small[..]),
        ("again", &small),
        ("empty", b""),
        ("unprintable", &unprintable),
        ("text", b"name a\n"),
    ] {
        fs::write(folder.join(file), bytes).expect("it is written");
    }
    let files = [
        "empty",
        "small",
        "unprintable",
        "-",
        "text",
        "again",
        "none",
    ];
    let errors = "\
        empty: refused with 1: the bytes end inside a number or the name (byte 0)\n\
        unprintable: refused with 23: a byte of the name is not printable ASCII (byte 18)\n\
        standard input: refused with 2: a number has too many groups, or is not in its shortest form (byte 0)\n\
        text: refused with 3: a number is outside its range (byte 0)\n\
        none: No such file or directory (os error 2)\n";
    expect(&folder, &files, &[0x81, 0], ("a: small again\n", errors, 1));
    let errors = "text: refused with 3: a number is outside its range (byte 0)\n";
    expect(&folder, &["--write", "text", "out"], b"", ("", errors, 1));
    assert!(!folder.join("out").exists());
    let errors = "no/folder: No such file or directory (os error 2)\n";
    let words = ["--write", "small", "no/folder"];
    expect(&folder, &words, b"", ("", errors, 1));
}

#[test]
fn writes_representatives() {
    let mut random = Random::new(91);
    let folder = folder("representatives");
    let mut moved = 0;
    for _ in 0..50 {
        let case = generate::tied(&mut random);
        let (record, behind) = (write::record(&case), random.bytes(3));
        let bytes = [&record[..], &behind].concat();
        let least = write::record(&representative::least(&case));
        fs::write(folder.join("file"), &bytes).expect("it is written");
        let printed = classes(&folder, &["--write", "file"].map(OsStr::new), b"");
        assert!(printed.status.success() && printed.stdout == least);
        let printed = classes(&folder, &["--write", "-"].map(OsStr::new), &bytes);
        assert!(printed.status.success() && printed.stdout == least);
        expect(&folder, &["--write", "file", "out"], b"", ("", "", 0));
        assert_eq!(fs::read(folder.join("out")).expect("a record"), least);
        moved += usize::from(record != least);
    }
    assert!((5..45).contains(&moved), "{moved}");
}

/// A record without a name, and files that may be called anything.
#[test]
fn shows_names_and_files() {
    let folder = folder("odd_names");
    let nameless = [1, 1, 1, 0, 0, 0, 0];
    let files = [&b"a b"[..], b"\\", b"\x1b[1m\xff"].map(OsStr::from_bytes);
    for file in files {
        fs::write(folder.join(file), nameless).expect("it is written");
    }
    let output = classes(&folder, &files, b"");
    let line = "(no name): a\\x20b \\\\ \\x1b[1m\\xff\n";
    assert_eq!(String::from_utf8_lossy(&output.stdout), line);
    let output = classes(&folder, &[OsStr::new("\x1b")], b"");
    let errors = "\\x1b: No such file or directory (os error 2)\n";
    assert_eq!(String::from_utf8_lossy(&output.stderr), errors);
}

#[test]
fn helps() {
    let folder = examples();
    let help = classes(&folder, &[OsStr::new("--help")], b"");
    assert!(help.status.success() && help.stderr.is_empty());
    let help = String::from_utf8(help.stdout).expect("text");
    assert!(help.starts_with("usage: classes FILE.."));
    assert!(help.lines().all(|line| line.len() <= 80), "{help}");
    let wrong_calls: [&[&str]; 5] = [
        &[],
        &["--group", "small.litmus"],
        &["small.litmus", "--write"],
        &["--write"],
        &["--write", "small.litmus", "a", "b"],
    ];
    for words in wrong_calls {
        expect(&folder, words, b"", ("", &help, 2));
    }
}
