//! The program `record`.

use ordinary::limits::{BARRIERS, STEPS, VALUE, WRITES};
use ordinary::text;
use std::fs;
use std::io::Write;
use std::path::{Path, PathBuf};
use std::process::{Command, Output, Stdio};

fn example(name: &str) -> PathBuf {
    Path::new(env!("CARGO_MANIFEST_DIR"))
        .join("../examples")
        .join(name)
}

/// Runs it with a text as standard input.
fn record(words: &[&Path], text: &str) -> Output {
    let mut command = Command::new(env!("CARGO_BIN_EXE_record"));
    command.args(words).stdin(Stdio::piped());
    command.stdout(Stdio::piped()).stderr(Stdio::piped());
    let mut child = command.spawn().expect("it starts");
    let mut input = child.stdin.take().expect("a pipe");
    input.write_all(text.as_bytes()).expect("it reads");
    drop(input);
    child.wait_with_output().expect("it ends")
}

/// The examples of a folder in `examples`, made as files with some ending; gives what is made of each.
fn makes(folder: &str, ending: &str) -> Vec<Vec<u8>> {
    let table = fs::read_to_string(example(&format!("{folder}answers.txt"))).expect("a table");
    let lines = table.lines().filter(|line| !line.starts_with('#'));
    let names = lines.filter_map(|line| line.split_whitespace().next());
    let make = |name| {
        let expected = fs::read(example(&format!("{folder}{name}.{ending}"))).expect("an example");
        let text = example(&format!("{folder}{name}.txt"));
        assert_eq!(record(&[&text], "").stdout, expected, "{name}");
        let source = fs::read_to_string(&text).expect("a text");
        assert_eq!(record(&[], &source).stdout, expected, "{name}");
        let target = Path::new(env!("CARGO_TARGET_TMPDIR")).join(format!("made.{ending}"));
        assert!(record(&[&text, &target], "").status.success());
        assert_eq!(fs::read(target).expect("it was made"), expected, "{name}");
        expected
    };
    names.map(make).collect()
}

/// All of them.
#[test]
fn makes_the_examples() {
    let mut editions = [0; 2];
    for record in makes("", "litmus") {
        editions[usize::from(record[0]) - 1] += 1;
    }
    assert!(editions.iter().all(|&count| count > 4), "{editions:?}");
    assert!(makes("traces/", "trace").len() > 20);
}

#[test]
fn says_what_is_wrong() {
    let front = "threads 1\naddresses x\n";
    for (lines, message) in [
        (
            "event load 0 z=1\n",
            "line 3: no address is named 'z' (there are: x)",
        ),
        (
            "event load 0 x=0\nevent load 0 x=0\ndependency data 0 1\n",
            "line 5: from event 0 to event 1: only a store can depend on a load by data or control",
        ),
        (
            "event load 0 x=4294967296\n",
            "line 3: '4294967296' is not a number from 0 to 4294967295",
        ),
        (
            "edition 1\nevent lwsync 0\n",
            "line 4: edition 1 has no lwsync",
        ),
        (
            "name two\twords\n",
            r"line 3: a name has only printable ASCII characters, not '\t'",
        ),
    ] {
        let output = record(&[], &format!("{front}{lines}"));
        assert!(!output.status.success() && output.stdout.is_empty());
        let errors = String::from_utf8_lossy(&output.stderr);
        assert_eq!(errors, format!("standard input: {message}\n"));
    }
    assert!(!record(&[Path::new("no such file")], "").status.success());
    let three = [Path::new("a"); 3];
    let usage = record(&three, "").stderr;
    assert!(usage.starts_with(b"usage: record"));
}

/// The bytes of a trace whose steps need not be enabled.
#[test]
fn makes_a_trace() {
    let text = "# a trace\ntrace\nthreads 2\naddresses x y\ninitial y=300\n\
        accept write y=128 by thread 1\naccept sync by thread 0\naccept lwsync by thread 1\n\
        propagate write 0 to thread 0\npropagate barrier 1 to thread 0\n\
        commit write 0 before write 0\nread x=5 by thread 0\nacknowledge barrier 1\n";
    let parts: [&[u8]; 10] = [
        &[2, 2, 0, 0xac, 2],
        &[8],
        &[1, 1, 1, 0x80, 1],
        &[2, 0, 0],
        &[2, 1, 1],
        &[3, 0, 0],
        &[4, 1, 0],
        &[5, 0, 0],
        &[6, 0, 0, 5],
        &[7, 1],
    ];
    assert_eq!(record(&[], text).stdout, parts.concat());
}

#[test]
fn says_what_is_wrong_with_a_trace() {
    let front = "trace\nthreads 2\naddresses x\n";
    let write = "accept write x=1 by thread 0\n";
    for (lines, message) in [
        (
            "accept write x=1 by thread 2\n".to_string(),
            "line 4: thread: '2' is not a number from 0 to 1",
        ),
        (
            "# a comment\npropagate write 0 to thread 1\n".to_string(),
            "line 5: no line above accepts a write",
        ),
        (
            write.to_string() + "commit write 0 before write 1\n",
            "line 5: write: '1' is not a number from 0 to 0",
        ),
        (
            write.repeat(17),
            "line 20: a trace accepts at most 16 writes",
        ),
        (
            "acknowledge 0\n".to_string(),
            "line 4: 'acknowledge 0' should look like: acknowledge barrier 0",
        ),
        (
            "event sync 0\n".to_string(),
            "line 4: a line starts with threads, addresses, initial, accept, propagate, commit, read or acknowledge, not with 'event'",
        ),
    ] {
        let output = record(&[], &format!("{front}{lines}"));
        assert!(!output.status.success() && output.stdout.is_empty());
        let errors = String::from_utf8_lossy(&output.stderr);
        assert_eq!(errors, format!("standard input: {message}\n"));
    }
}

/// The greatest value, as an initial one, stored and loaded.
#[test]
fn takes_the_greatest_value() {
    let text = "threads 1\naddresses x\ninitial x=4294967295\n\
        event store 0 x=4294967295\nevent load 0 x=4294967295\norder 0 closed: 0<1\n";
    let greatest = [0xff, 0xff, 0xff, 0xff, 0xf];
    let parts: [&[u8]; 7] = [
        &[1, 1, 1],
        &greatest,
        &[2, 1, 0, 0],
        &greatest,
        &[0, 0, 0],
        &greatest,
        &[0, 1, 0, 1, 0],
    ];
    assert_eq!(record(&[], text).stdout, parts.concat());
}

#[test]
fn helps() {
    let help = record(&[Path::new("--help")], "").stdout;
    let help = String::from_utf8(help).expect("text");
    assert!(help.starts_with("usage: record [TEXT [FILE]]\n"));
    let (case, trace) = (text::HELP, text::trace::HELP);
    assert!(help.ends_with(&format!("{case}\n{trace}")));
    for part in [case, trace] {
        assert!(part.contains(&format!("Values are 0 to {VALUE}.")));
    }
    let words = trace.split_whitespace().collect::<Vec<_>>().join(" ");
    assert!(words.contains(&format!("at most {STEPS}. ")));
    assert!(words.contains(&format!("at most {WRITES} writes and {BARRIERS} barriers")));
    assert!(help.lines().all(|line| line.len() <= 80), "{help}");
}
