//! The C examples, compiled against the header and the archive, and how C lays out its structs.

#[path = "common/compile.rs"]
mod compile;
#[path = "common/lines.rs"]
mod lines;

use compile::{compiled, root, temporary};
use lines::lines;
use litmus::{Case, CaseAnswer, Choice, ConditionAnswer, Frame, LogAnswer, Tally};
use litmus::{Steps, Storage, TraceAnswer, TraceReading};
use ordinary::generate::any_records;
use ordinary::random::Random;
use std::fs::{self, File};
use std::mem::{offset_of, size_of};
use std::path::Path;
use std::process::{Command, Output};

const C: &[&str] = &["cc", "-std=c99"];
const OPTIMISED_C: &[&str] = &["cc", "-std=c99", "-O2"];
const CPP: &[&str] = &["g++", "-x", "c++"];

/// Runs it on a file in `examples/`, or one with a whole path.
fn run(program: &Path, file: impl AsRef<Path>) -> Output {
    let mut command = Command::new(program);
    command.arg(root().join("examples").join(file));
    command.output().expect("the example starts")
}

/// An example with a line's end as the last byte of its name.
fn unprintable() -> &'static str {
    let file = concat!(env!("CARGO_TARGET_TMPDIR"), "/unprintable.litmus");
    let mut record = fs::read(root().join("examples/small.litmus")).expect("a record");
    *record.last_mut().expect("a name") = b'\n';
    fs::write(file, record).expect("it is written");
    file
}

#[test]
fn prints_what_the_library_answers() {
    let program = compiled(C, &root().join("examples/c/example.c"), "c_example");
    let expected = [
        (
            "dekker.litmus",
            "Dekker\nPPCw: possible, finals 1 1 0 0\nPPCs: not possible, rule 16\n",
        ),
        (
            "small.litmus",
            "a\nPPCw: possible, finals 1 0 0 0\nPPCs: possible, finals 1 0 0 0\n",
        ),
        (
            "sb-lwsync.litmus",
            "SB lwsync\nPPCw: possible, finals 1 1 0 0\nPPCs: possible, finals 1 1 0 0\n",
        ),
        (
            "mp-dependency.litmus",
            "MP dependency\nPPCw: not possible, rule 13\nPPCs: not possible, rule 13\n",
        ),
        (
            "README.md",
            "\nPPCw: refused with 3 at byte 0\nPPCs: refused with 3 at byte 0\n",
        ),
        (
            unprintable(),
            "\nPPCw: refused with 23 at byte 18\nPPCs: refused with 23 at byte 18\n",
        ),
    ];
    for (record, lines) in expected {
        let output = run(&program, record);
        assert!(output.status.success(), "{record}");
        assert_eq!(String::from_utf8_lossy(&output.stdout), lines, "{record}");
    }
    assert!(!run(&program, "no such file").status.success());
}

/// Runs it in `examples/`: what it prints, its errors, and whether it ends well.
fn said(command: &mut Command) -> (String, String, bool) {
    command.current_dir(root().join("examples"));
    let output = command.output().expect("the example starts");
    let [printed, errors] =
        [output.stdout, output.stderr].map(|text| String::from_utf8_lossy(&text).into_owned());
    (printed, errors, output.status.success())
}

#[test]
fn files_two_records() {
    let source = root().join("examples/c/representative.c");
    let program = compiled(C, &source, "c_representative");
    let expected = [
        (
            ["message.litmus", "message-swapped.litmus"],
            "one case\nthe lesser: the first, 54 bytes\n",
        ),
        (
            ["message-swapped.litmus", "message.litmus"],
            "one case\nthe lesser: the second, 54 bytes\n",
        ),
        (
            ["message.litmus", "message.litmus"],
            "one case\nthe lesser: the first, 54 bytes\n",
        ),
        (
            ["message-ordered.litmus", "message.litmus"],
            "two cases\nthe lesser: the second, 54 bytes\n",
        ),
        (
            ["hoist-lwsync.litmus", "dekker.litmus"],
            "two cases\nthe lesser: the second, 77 bytes\n",
        ),
    ];
    for (files, lines) in expected {
        let found = said(Command::new(&program).args(files));
        assert_eq!(found, (lines.to_string(), String::new(), true), "{files:?}");
    }
    for (files, errors) in [
        (
            ["README.md", "none"],
            "README.md: refused with 3 at byte 0\n",
        ),
        (["small.litmus", "none"], "none: it can't be opened\n"),
    ] {
        let found = said(Command::new(&program).args(files));
        assert_eq!(found, (String::new(), errors.to_string(), false));
    }
}

/// The number and the place of a text's fault, or of a record's; the text of the last is too long to
/// be shown.
fn asks_a_condition(compiler: &[&str], name: &str) {
    let program = compiled(compiler, &root().join("examples/c/condition.c"), name);
    let both = |answer: &str| format!("PPCw: {answer}\nPPCs: {answer}\n");
    let long = "m0=1 ".repeat(200);
    for (text, file, lines) in [
        (
            r"e2=0 /\ e5=0",
            "dekker.litmus",
            "PPCw: holds\nPPCs: not possible, rule 16\n".to_string(),
        ),
        ("m0=1", "small.litmus", both("holds")),
        ("m0=0", "small.litmus", both("does not hold")),
        (
            r"m0=1 /m0=1",
            "small.litmus",
            both("text refused with 21\n    m0=1 /m0=1\n          ^"),
        ),
        (
            "e0=1",
            "small.litmus",
            both("text refused with 3\n    e0=1\n     ^"),
        ),
        ("e0=1", "README.md", both("refused with 3 at byte 0")),
        (&long, "small.litmus", both("text refused with 3")),
    ] {
        let found = said(Command::new(&program).args([text, file]));
        assert_eq!(found, (lines, String::new(), true), "{text}");
    }
    let (_, errors, well) = said(Command::new(&program).arg("m0=1"));
    assert_eq!((&errors[..], well), ("usage: condition TEXT FILE\n", false));
}

#[test]
fn c_asks_a_condition() {
    asks_a_condition(C, "c_condition");
    asks_a_condition(OPTIMISED_C, "c_condition_optimised");
}

/// The case that C builds is judged and written as the example of its name is.
fn builds_a_case(compiler: &[&str], name: &str) {
    let program = compiled(compiler, &root().join("examples/c/case.c"), name);
    let file = temporary(&format!("{name}.litmus"));
    let output = run(&program, &file);
    assert!(output.status.success());
    assert_eq!(
        String::from_utf8_lossy(&output.stdout),
        "PPCw: possible, finals 1 1\nPPCs: not possible, rule 16\n77 bytes\n"
    );
    let example = fs::read(root().join("examples/dekker.litmus"));
    let written = fs::read(file);
    assert_eq!(written.expect("a record"), example.expect("a record"));
    assert!(!run(&program, "no such folder/file").status.success());
}

#[test]
fn c_builds_a_case() {
    builds_a_case(C, "c_case");
    builds_a_case(OPTIMISED_C, "c_case_optimised");
}

#[test]
fn cpp_builds_a_case() {
    match Command::new(CPP[0]).arg("--version").output() {
        Ok(_) => builds_a_case(CPP, "cpp_case"),
        Err(_) => println!("there is no {}", CPP[0]),
    }
}

/// Runs it with a file as standard input.
fn run_on_input(program: &Path, file: &Path) -> Output {
    let mut command = Command::new(program);
    command.stdin(File::open(file).expect("a file"));
    command.output().expect("the example starts")
}

/// Logs of any length, whole and cut inside a record.
fn judges_logs(compiler: &[&str], name: &str) {
    let program = compiled(compiler, &root().join("examples/c/log.c"), name);
    let mut random = Random::new(70);
    let examples = fs::read(root().join("examples/all.log")).expect("a log");
    let long = any_records(&mut random, 400).concat();
    assert!(long.len() > 200_000, "{}", long.len());
    let file = temporary(&format!("{name}.log"));
    for log in [
        &[],
        &examples[..],
        &examples[..500],
        &long,
        &long[..long.len() - 1],
    ] {
        fs::write(&file, log).expect("it is written");
        let output = run_on_input(&program, &file);
        assert!(output.status.success());
        assert_eq!(String::from_utf8_lossy(&output.stdout), lines(log));
    }
    let output = run_on_input(&program, &root());
    assert!(!output.status.success() && output.stdout.is_empty());
}

#[test]
fn c_judges_logs() {
    judges_logs(C, "c_log");
    judges_logs(OPTIMISED_C, "c_log_optimised");
}

/// An area with room for two records, in which an append was cut.
fn fills_an_area(compiler: &[&str], name: &str) {
    let program = compiled(compiler, &root().join("examples/c/area.c"), name);
    let (area, log) = (temporary(&format!("{name}.area")), temporary(name));
    let log = log.with_extension("log");
    let small = fs::read(root().join("examples/small.litmus")).expect("a record");
    let cut = [&[0xff], &small[..7], &[0xff; 37]].concat();
    fs::write(&area, cut).expect("it is written");
    for (input, lines, errors) in [
        (&small[..], "cleared 7 bytes\nappended 19 bytes\n", ""),
        (&[], "", ""),
        (&[0], "", "refused with 3 at byte 0\n"),
        (
            &small.repeat(2),
            "appended 19 bytes\n",
            "refused with 6 at byte 0\n",
        ),
        (&small[..5], "", "refused with 1 at byte 5\n"),
    ] {
        fs::write(&log, input).expect("it is written");
        let input = File::open(&log).expect("a file");
        let found = said(Command::new(&program).arg(&area).stdin(input));
        let expected = (lines.to_string(), errors.to_string(), errors.is_empty());
        assert_eq!(found, expected);
    }
    let frame = [&[0], &small[..]].concat();
    let filled = [&frame[..], &frame, &[0xff; 5]].concat();
    assert_eq!(fs::read(&area).expect("an area"), filled);
    fs::write(&area, [&frame[..], &[1]].concat()).expect("it is written");
    let (_, errors, well) = said(Command::new(&program).arg(&area));
    assert_eq!((&errors[..], well), ("refused with 9 at byte 20\n", false));
    assert!(!run(&program, "no such file").status.success());
}

#[test]
fn c_fills_an_area() {
    fills_an_area(C, "c_area");
    fills_an_area(OPTIMISED_C, "c_area_optimised");
}

/// Traces that are accepted, that are not, and bytes that are none.
fn runs_a_trace(compiler: &[&str], name: &str) {
    let program = compiled(compiler, &root().join("examples/c/trace.c"), name);
    for (file, lines) in [
        (
            "traces/mp-lwsync.trace",
            "every step is enabled; 33 bytes\n\
             thread 0: write 0 barrier 0 write 1\nthread 1: write 0 barrier 0 write 1\n",
        ),
        (
            "traces/mp-lwsync-flag-first.trace",
            "step 3, of kind 3, is not enabled: condition 3\n",
        ),
        (
            "traces/iriw-syncs-too-early.trace",
            "step 8, of kind 7, is not enabled: condition 2\n",
        ),
        ("README.md", "refused with 3 at byte 0\n"),
    ] {
        let found = said(Command::new(&program).arg(file));
        assert_eq!(found, (lines.to_string(), String::new(), true), "{file}");
    }
    assert!(!run(&program, "no such file").status.success());
}

#[test]
fn c_runs_a_trace() {
    runs_a_trace(C, "c_trace");
    runs_a_trace(OPTIMISED_C, "c_trace_optimised");
}

/// Every field lies in C where it lies in Rust.
#[test]
fn structs_lie_alike() {
    let (mut places, mut lines) = (Vec::new(), String::new());
    macro_rules! fields {
        ($rust:ident, $c:literal, $($field:ident)*) => {
            places.push(size_of::<$rust>());
            lines += concat!("at(sizeof(", $c, "));\n");
            $(
                places.push(offset_of!($rust, $field));
                lines += concat!("at(offsetof(", $c, ", ", stringify!($field), "));\n");
            )*
        };
    }
    fields!(Case, "litmus_case", edition threads addresses events initial kind thread address);
    fields!(Case, "litmus_case", value dependencies dependency_class dependency_from);
    fields!(Case, "litmus_case", dependency_to writes rows name name_length);
    fields!(CaseAnswer, "litmus_case_answer", answer);
    places.push(offset_of!(CaseAnswer, case));
    lines += "at(offsetof(litmus_case_answer, result));\n";
    fields!(Choice, "litmus_choice", which length);
    fields!(ConditionAnswer, "litmus_condition_answer", number place length finals holds);
    fields!(Tally, "litmus_tally", records accepted broken);
    fields!(LogAnswer, "litmus_log_answer", number ended place length);
    fields!(Frame, "litmus_frame", number ended place at length);
    fields!(Storage, "litmus_storage", threads addresses initial writes writer address value before);
    fields!(Storage, "litmus_storage", barriers owner barrier_class unacknowledged listed events);
    fields!(TraceAnswer, "litmus_trace_answer", number condition place step length end);
    fields!(Steps, "litmus_steps", threads addresses initial steps kind first second value);
    fields!(TraceReading, "litmus_trace_reading", number place length steps);
    let source = temporary("layout.c");
    let text = format!(
        "#include \"litmus.h\"\n#include <stdio.h>\n\
         static void at(size_t place) {{ printf(\"%lu\\n\", (unsigned long)place); }}\n\
         int main(void) {{\n{lines}return 0;\n}}\n"
    );
    fs::write(&source, text).expect("it is written");
    let program = compiled(C, &source, "layout");
    let output = Command::new(program).output().expect("it starts");
    let expected: String = places.iter().map(|place| format!("{place}\n")).collect();
    assert_eq!(String::from_utf8_lossy(&output.stdout), expected);
}

/// The header alone, in C++.
#[test]
fn the_header_is_fit_for_cpp() {
    let status = Command::new("cc")
        .args(["-x", "c++", "-Wall", "-Wextra", "-Werror", "-fsyntax-only"])
        .arg(root().join("include/litmus.h"))
        .status();
    assert!(status.expect("cc starts").success());
}
