//! The program `trace`, and the traces of `examples/`.

#[path = "common/command.rs"]
mod command;
#[path = "common/trace_text.rs"]
mod trace_text;

use command::{examples, folder, run};
use std::ffi::OsStr;
use std::fs;
use std::path::{Path, PathBuf};
use trace_text::bytes;

const PROGRAM: &str = env!("CARGO_BIN_EXE_trace");

fn expect(folder: &Path, words: &[&str], bytes: &[u8], expected: (&str, &str, i32)) {
    command::expect(PROGRAM, folder, words, bytes, expected);
}

fn trace_folder() -> PathBuf {
    examples().join("traces")
}

/// Steps of each kind, a coherence order that is no chain, and a sync that waits.
const ALL: &str = "threads 4\naddresses x y\ninitial y=4294967295\n\
    accept write x=1 by thread 0\naccept write x=2 by thread 1\naccept write x=3 by thread 2\n\
    commit write 1 before write 0\ncommit write 1 before write 2\n\
    accept sync by thread 0\naccept lwsync by thread 1\naccept sync by thread 3\n\
    propagate barrier 2 to thread 0\npropagate write 0 to thread 1\n\
    propagate barrier 2 to thread 1\npropagate barrier 2 to thread 2\nacknowledge barrier 2\n\
    accept write y=7 by thread 0\nread y=7 by thread 0\nread y=4294967295 by thread 3\n";

const ALL_TOLD: &str = "byte 0, 66 bytes long
  threads 4, initial values 0 4294967295
  step 0: accept write 0 by thread 0: 1 to address 0
  step 1: accept write 1 by thread 1: 2 to address 0
  step 2: accept write 2 by thread 2: 3 to address 0
  step 3: commit write 1 before write 0
  step 4: commit write 1 before write 2
  step 5: accept barrier 0 by thread 0: sync
  step 6: accept barrier 1 by thread 1: lwsync
  step 7: accept barrier 2 by thread 3: sync
  step 8: propagate barrier 2 to thread 0
  step 9: propagate write 0 to thread 1
  step 10: propagate barrier 2 to thread 1
  step 11: propagate barrier 2 to thread 2
  step 12: acknowledge barrier 2
  step 13: accept write 3 by thread 0: 7 to address 1
  step 14: read by thread 0: 7 from address 1
  step 15: read by thread 3: 4294967295 from address 1
  every step is enabled; at the end
    coherence of address 0: writes 1<0, 1<2
    propagated to thread 0: write 0, barrier 0, barrier 2, write 3
    propagated to thread 1: write 1, barrier 1, write 0, barrier 2
    propagated to thread 2: write 2, barrier 2
    propagated to thread 3: barrier 2
    not acknowledged: barrier 0
";

#[test]
fn every_kind_of_step() {
    let folder = folder("traced_all");
    fs::write(folder.join("all.trace"), bytes(ALL)).expect("a file");
    let told = format!("all.trace, {ALL_TOLD}");
    expect(&folder, &["all.trace"], b"", (&told, "", 0));
    let told = format!("standard input, {ALL_TOLD}");
    expect(&folder, &[], &bytes(ALL), (&told, "", 0));
    expect(&folder, &["-"], &bytes(ALL), (&told, "", 0));
}

const EMPTY_TOLD: &str = "byte 0, 4 bytes long
  threads 1, initial values 9
  every step is enabled; at the end
    propagated to thread 0: nothing
";

/// What comes behind the step that is not enabled is not told, whatever it is.
const REFUSED: &str =
    "threads 1\naddresses x\naccept write x=1 by thread 0\nread x=2 by thread 0\n\
    read x=3 by thread 0\n";

const REFUSED_TOLD: &str = "16 bytes long
  threads 1, initial values 0
  step 0: accept write 0 by thread 0: 1 to address 0
  step 1: read by thread 0: 2 from address 0
  step 1 is not enabled: condition 1 on a read response fails: thread 0 reads the most recent write to address 0 that has been propagated to it, or else the initial value, and that is not 2
";

#[test]
fn back_to_back() {
    let folder = folder("traced_back_to_back");
    let empty = bytes("threads 1\naddresses x\ninitial x=9\n");
    let refused = bytes(REFUSED);
    fs::write(folder.join("a b"), [&empty[..], &refused].concat()).expect("a file");
    fs::write(folder.join("none"), b"").expect("a file");
    let file = format!("a\\x20b, {EMPTY_TOLD}a\\x20b, byte 4, {REFUSED_TOLD}");
    expect(&folder, &["a b"], b"", (&file, "", 1));
    let input = format!("standard input, {EMPTY_TOLD}");
    let twice = empty.repeat(2);
    let second = input.replace("byte 0", "byte 4");
    expect(&folder, &[], &twice, (&(input.clone() + &second), "", 0));
    expect(&folder, &["none"], b"", ("", "", 0));
    let words = ["-", "none", "a b"];
    expect(&folder, &words, &empty, (&(input + &file), "", 1));
}

/// The traces before one that can't be read, and those of other files, are still told.
#[test]
fn says_what_is_wrong() {
    let folder = folder("traced_bad_files");
    let empty = bytes("threads 1\naddresses x\ninitial x=9\n");
    let file = |name: &str, bad: &[u8]| {
        fs::write(folder.join(name), [&empty[..], bad].concat()).expect("a file");
    };
    file("cut", &[1, 1, 0]);
    file("long", &[1, 1, 0x80, 0]);
    file("unaccepted", &[1, 1, 0, 1, 3, 0, 0]);
    let errors = "\
        cut: refused with 1: the bytes end inside a number or the name (byte 7)\n\
        long: refused with 2: a number has too many groups, or is not in its shortest form (byte 6)\n\
        none: No such file or directory (os error 2)\n\
        unaccepted: refused with 3: a number is outside its range (byte 9)\n\
        standard input: refused with 3: a number is outside its range (byte 0)\n";
    let told = |name: &str| format!("{name}, {EMPTY_TOLD}");
    let lines = told("cut") + &told("long") + &told("unaccepted");
    let words = ["cut", "long", "none", "unaccepted", "-"];
    expect(&folder, &words, b"trace\n", (&lines, errors, 1));
}

/// In the order of their table.
#[test]
fn the_examples_are_printed_as_stored() {
    let folder = trace_folder();
    let table = fs::read_to_string(folder.join("answers.txt")).expect("a table");
    let lines = table.lines().filter(|line| !line.starts_with('#'));
    let names = lines.filter_map(|line| line.split_whitespace().next());
    let files: Vec<String> = names.map(|name| format!("{name}.trace")).collect();
    let files: Vec<&str> = files.iter().map(String::as_str).collect();
    let printed = fs::read_to_string(folder.join("printed.txt")).expect("a text");
    expect(&folder, &files, b"", (&printed, "", 1));
}

/// What the guides show is what is printed.
#[test]
fn the_guides_say_the_same() {
    let root = examples().join("..");
    for (guide, file) in [
        ("examples/README.md", "../examples/traces/coww.trace"),
        ("README.md", "examples/traces/mp-lwsync-flag-first.trace"),
    ] {
        let folder = if file.starts_with("..") { "rust" } else { "." };
        let output = run(PROGRAM, &root.join(folder), &[OsStr::new(file)], b"");
        let printed = String::from_utf8(output.stdout).expect("text");
        let lines = printed.lines().map(|line| format!("    {line}"));
        let shown = lines.collect::<Vec<String>>().join("\n");
        let guide = fs::read_to_string(root.join(guide)).expect("a guide");
        assert!(guide.contains(&shown), "{shown}");
    }
}

#[test]
fn helps() {
    let folder = trace_folder();
    let help = run(PROGRAM, &folder, &[OsStr::new("--help")], b"");
    assert!(help.status.success() && help.stderr.is_empty());
    let help = String::from_utf8(help.stdout).expect("text");
    assert!(help.starts_with("usage: trace [FILE..]\n"));
    assert!(help.lines().all(|line| line.len() <= 80), "{help}");
    expect(&folder, &["-h"], b"", (&help, "", 0));
    for words in [["--all", "mp.trace"], ["mp.trace", "--help"]] {
        expect(&folder, &words, b"", ("", &help, 2));
    }
    let shown = bytes(
        "threads 2\naddresses x y\naccept write x=1 by thread 0\naccept lwsync by thread 0\n\
         accept write y=1 by thread 0\npropagate write 0 to thread 1\n",
    );
    let output = run(PROGRAM, &folder, &[], &shown).stdout;
    let output = String::from_utf8(output).expect("text");
    let lines = output.lines().map(|line| format!("    {line}\n"));
    let lines = lines
        .collect::<String>()
        .replace("standard input", "message.trace");
    assert!(help.contains(&lines), "{lines}");
}
