//! The traces in `examples/traces` and what is said of them.

use super::{annotated, file, section, text_file};
use ordinary::answer::DISABLED;
use ordinary::storage::{judge_trace, trace_bytes};
use ordinary::text::trace;
use std::fs;

/// A line of `answers.txt`.
struct Stated {
    name: String,
    number: u32,
    /// The step that is not enabled and the condition that fails; 0 and 0 if there is none.
    refused: [usize; 2],
}

fn stated() -> Vec<Stated> {
    let table = text_file("traces/answers.txt");
    let lines = table.lines().filter(|line| !line.starts_with('#'));
    lines.map(stated_in).collect()
}

fn stated_in(line: &str) -> Stated {
    let words: Vec<&str> = line.split_whitespace().collect();
    let number = |word: &str| word.parse().expect(line);
    match words[..] {
        [name, "0"] => Stated {
            name: name.to_string(),
            number: 0,
            refused: [0, 0],
        },
        [name, "31", step, condition] => Stated {
            name: name.to_string(),
            number: DISABLED,
            refused: [number(step), number(condition)],
        },
        _ => panic!("{line}"),
    }
}

#[test]
fn traces_are_made_from_their_texts() {
    for Stated { name, .. } in stated() {
        let source = text_file(&format!("traces/{name}.txt"));
        assert!(trace::is_trace(&source), "{name}");
        let trace = trace::parse(&source).unwrap_or_else(|fault| panic!("{name}: {fault}"));
        let bytes = file(&format!("traces/{name}.trace"));
        assert_eq!(trace_bytes(&trace), bytes, "make {name}.trace anew");
    }
}

#[test]
fn answers_are_as_stated() {
    for Stated {
        name,
        number,
        refused,
    } in stated()
    {
        let bytes = file(&format!("traces/{name}.trace"));
        let answer = judge_trace(&bytes);
        let found = [answer.step, answer.condition as usize];
        assert_eq!((answer.number, found), (number, refused), "{name}");
        let length = if number == 0 { bytes.len() } else { 0 };
        assert_eq!(answer.length, length, "{name}");
    }
}

/// Each in the table has a file, each file stands in the table, and both answers come up.
#[test]
fn every_trace_is_stated() {
    let mut listed: Vec<String> = stated().iter().map(|line| line.name.clone()).collect();
    let entries = fs::read_dir(super::folder().join("traces")).expect("traces");
    let paths = entries.map(|entry| entry.expect("an entry").path());
    let traces = paths.filter(|path| path.extension().is_some_and(|end| end == "trace"));
    let names = traces.map(|path| path.file_stem().expect("a name").to_owned());
    let mut found: Vec<String> = names
        .map(|name| name.into_string().expect("text"))
        .collect();
    listed.sort();
    found.sort();
    assert_eq!(found, listed);
    for number in [0, DISABLED] {
        let lines = stated();
        let count = lines.iter().filter(|line| line.number == number).count();
        assert!(count > 10, "{number}");
    }
}

/// The guide has a row for each, in the same order, which ends in the answer.
#[test]
fn the_guide_says_the_same() {
    let guide = text_file("README.md");
    let rows = section(&guide, "## Traces").filter(|line| line.starts_with("| `"));
    let rows: Vec<&str> = rows.collect();
    assert_eq!(rows.len(), stated().len());
    for (row, line) in rows.iter().zip(stated()) {
        let [step, condition] = line.refused;
        let end = match line.number {
            0 => "| 0 |".to_string(),
            number => format!("| {number} at step {step}, condition {condition} |"),
        };
        assert!(row.starts_with(&format!("| `{}` |", line.name)), "{row}");
        assert!(row.ends_with(&end), "{row}");
    }
}

/// The trace that the description of the format shows byte by byte.
#[test]
fn the_annotated_trace_is_the_example() {
    let guide = text_file("../docs/FORMAT.md");
    let bytes = annotated(&guide, "## An example: the trace `mp-lwsync`");
    assert_eq!(bytes, file("traces/mp-lwsync.trace"));
}

/// The texts that the guides show are those of the examples.
#[test]
fn the_texts_in_the_guides_are_the_examples() {
    for (guide, name) in [
        ("../docs/FORMAT.md", "mp-lwsync"),
        ("../README.md", "mp-lwsync-flag-first"),
    ] {
        let text = text_file(&format!("traces/{name}.txt"));
        let indented: Vec<String> = text.lines().map(|line| format!("    {line}")).collect();
        assert!(text_file(guide).contains(&indented.join("\n")), "{guide}");
    }
}
