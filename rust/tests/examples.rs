//! The library's answers to the records in `examples/`, and the examples of how to call it.

mod common;

use common::plain;
use ordinary::answer::{ENDS, UNPRINTABLE};
use ordinary::judge::{judge, PPCS, PPCW, RULES};
use ordinary::tally::Tally;
use ordinary::Answer;
use std::path::{Path, PathBuf};
use std::process::Command;
use std::{env, fs};

fn folder() -> PathBuf {
    Path::new(env!("CARGO_MANIFEST_DIR")).join("../examples")
}

/// Runs a command that must end well, and hands back what it printed.
fn output(command: &mut Command) -> String {
    let output = command.output().expect("it starts");
    let errors = String::from_utf8_lossy(&output.stderr);
    assert!(output.status.success(), "{command:?}: {errors}");
    String::from_utf8(output.stdout).expect("text")
}

/// As they are, and with an unprintable byte at the end of their name, which comes before any rule.
#[test]
fn records() {
    let mut tally = Tally::default();
    for entry in fs::read_dir(folder()).expect("examples") {
        let path = entry.expect("an entry").path();
        if path.extension().is_some_and(|end| end == "litmus") {
            let record = fs::read(&path).expect("a record");
            let (mut unprintable, place) = (record.clone(), record.len() - 1);
            unprintable[place] = 127;
            let refused = Answer {
                place,
                ..Answer::refused(UNPRINTABLE)
            };
            for model in [PPCW, PPCS] {
                let answer = plain(litmus::judge_raw(&record, model));
                assert_eq!(answer, judge(&record, model), "{}", path.display());
                tally.add("numbers", answer.number);
                let answer = plain(litmus::judge_raw(&unprintable, model));
                assert_eq!(answer, refused, "{}", path.display());
            }
        }
    }
    tally.assert_each("numbers", RULES, 1);
    tally.assert_each("numbers", [0], 10);
}

/// As they are, and cut short.
#[test]
fn traces() {
    let table = fs::read_to_string(folder().join("traces/answers.txt")).expect("a table");
    for line in table.lines().filter(|line| !line.starts_with('#')) {
        let mut words = line.split_whitespace();
        let name = words.next().expect(line);
        let bytes = fs::read(folder().join(format!("traces/{name}.trace"))).expect(name);
        let answer = litmus::trace_raw(&bytes);
        let [number, step, condition] = [0; 3].map(|_| words.next().unwrap_or("0").parse());
        assert_eq!(Ok(answer.number), number, "{name}");
        assert_eq!(Ok(answer.step as u32), step, "{name}");
        assert_eq!(Ok(answer.condition), condition, "{name}");
        for cut in 0..bytes.len() {
            let answer = litmus::trace_raw(&bytes[..cut]);
            assert_eq!(answer.number, ENDS, "{name}");
        }
    }
}

/// What an example prints that is handed a file.
fn example(name: &str, file: &Path) -> String {
    example_with(name, &[], file)
}

/// What an example prints that is handed some words and a file.
fn example_with(name: &str, words: &[&str], file: &Path) -> String {
    let mut cargo = Command::new(env!("CARGO"));
    cargo.args(["run", "--quiet", "--offline", "--example", name, "--"]);
    cargo.current_dir(env!("CARGO_MANIFEST_DIR"));
    output(cargo.args(words).arg(file))
}

const RULE_16: &str = "rule 16: a load holds another value than some store to its address, does not come before it, and no other store lies between";

#[test]
fn a_record_is_judged() {
    assert_eq!(
        example("judge_one", &folder().join("dekker.litmus")),
        format!("Dekker\nPPCw: possible: finals 1 1\nPPCs: not possible: {RULE_16}\n")
    );
}

#[test]
fn a_condition_is_asked() {
    let ask = |text, file| example_with("ask_one", &[text], &folder().join(file));
    assert_eq!(
        ask(r"e2=0 /\ e5=0", "dekker.litmus"),
        format!("PPCw: holds\nPPCs: not possible: {RULE_16}\n")
    );
    let fault = r"the text is refused with 21: /\ or \/ has to stand here (byte 4)
    m0=1~e1=1
        ^";
    assert_eq!(
        ask("m0=1~e1=1", "small.litmus"),
        format!("PPCw: {fault}\nPPCs: {fault}\n")
    );
}

#[test]
fn a_log_is_judged() {
    let counts = "records: 26, accepted: 7, rule 11: 1, rule 12: 1, rule 13: 2, rule 14: 1, rule 15: 4, rule 16: 6, rule 17: 2, rule 18: 2";
    assert_eq!(
        example("judge_a_log", &folder().join("all.log")),
        format!("{counts}\n")
    );
    let refused = "records: 0, accepted: 0; then refused with 3: a number is outside its range";
    assert_eq!(
        example("judge_a_log", &folder().join("README.md")),
        format!("{refused} (byte 0)\n")
    );
}

#[test]
fn an_area_is_kept() {
    assert_eq!(
        example("keep_an_area", &folder().join("dekker.litmus")),
        "after 77 stores:\nafter 78 stores:\n    Dekker\n"
    );
}

#[test]
fn a_trace_is_run() {
    let run = |name| example("run_a_trace", &folder().join("traces").join(name));
    assert_eq!(
        run("corr-in-order.trace"),
        "accept write 0 by thread 0: 1 to address 0\n\
         accept write 1 by thread 0: 2 to address 0\n\
         propagate write 0 to thread 1\nread by thread 1: 1 from address 0\n\
         propagate write 1 to thread 1\nread by thread 1: 2 from address 0\n\
         every step is enabled\ncoherence of address 0: writes 0<1\n\
         propagated to thread 0: write 0, write 1\npropagated to thread 1: write 0, write 1\n"
    );
    assert_eq!(
        run("coww.trace"),
        "accept write 0 by thread 0: 1 to address 0\n\
         accept write 1 by thread 0: 2 to address 0\ncommit write 1 before write 0\n\
         step 2 is not enabled: condition 2 on a coherence commitment fails: writes 1 and 0 are already related by coherence\n"
    );
}

#[test]
fn a_case_is_built() {
    let file = Path::new(env!("CARGO_TARGET_TMPDIR")).join("built.litmus");
    assert_eq!(
        example("build_one", &file),
        format!("PPCw: not possible: {RULE_16}\nPPCs: not possible: {RULE_16}\n")
    );
    let expected = fs::read(folder().join("hoist-dependency.litmus"));
    let built = fs::read(file);
    assert_eq!(built.expect("a record"), expected.expect("a record"));
}
