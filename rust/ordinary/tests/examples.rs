//! The files in `examples/` are what `record` makes of their texts, and answer what the table says.

#[path = "examples/traces.rs"]
mod traces;

use ordinary::answer::{ROOM, UNREPAIRED};
use ordinary::area::{append, repair};
use ordinary::judge::{judge, PPCS, PPCW};
use ordinary::log::log;
use ordinary::{read, text, write, Answer};
use std::fs;
use std::path::{Path, PathBuf};

fn folder() -> PathBuf {
    Path::new(env!("CARGO_MANIFEST_DIR")).join("../../examples")
}

fn file(name: &str) -> Vec<u8> {
    let path = folder().join(name);
    fs::read(&path).unwrap_or_else(|fault| panic!("{}: {fault}", path.display()))
}

fn text_file(name: &str) -> String {
    String::from_utf8(file(name)).expect(name)
}

/// A line of `answers.txt`.
struct Stated {
    name: String,
    numbers: [u32; 2],
    finals: Vec<u32>,
}

fn stated() -> Vec<Stated> {
    let table = text_file("answers.txt");
    let lines = table.lines().filter(|line| !line.starts_with('#'));
    lines.map(stated_in).collect()
}

fn stated_in(line: &str) -> Stated {
    let mut words = line.split_whitespace();
    let name = words.next().expect("a name").to_string();
    let mut numbers = words.map(|word| word.parse().expect(line));
    Stated {
        name,
        numbers: [0; 2].map(|_| numbers.next().expect(line)),
        finals: numbers.collect(),
    }
}

#[test]
fn records_are_made_from_their_texts() {
    for Stated { name, .. } in stated() {
        let source = text_file(&format!("{name}.txt"));
        let case = text::parse(&source).unwrap_or_else(|fault| panic!("{name}: {fault}"));
        let record = file(&format!("{name}.litmus"));
        assert_eq!(write::record(&case), record, "make {name}.litmus anew");
    }
}

#[test]
fn answers_are_as_stated() {
    for Stated {
        name,
        numbers,
        finals,
    } in stated()
    {
        let record = file(&format!("{name}.litmus"));
        let answers = [PPCW, PPCS].map(|model| judge(&record, model));
        assert_eq!(answers.map(|answer| answer.number), numbers, "{name}");
        assert_eq!(answers[0].length, record.len(), "{name}");
        let addresses = read::read(&record).expect("readable").case.addresses();
        let accepted = &answers[0].finals[..addresses];
        match numbers[0] {
            0 => assert_eq!(accepted, finals, "{name}"),
            _ => assert!(finals.is_empty(), "{name}"),
        }
    }
}

#[test]
fn every_record_is_stated() {
    let listed: Vec<String> = stated().into_iter().map(|line| line.name).collect();
    let mut found = 0;
    for entry in fs::read_dir(folder()).expect("examples") {
        let path = entry.expect("an entry").path();
        if path.extension().is_some_and(|end| end == "litmus") {
            let name = path.file_stem().unwrap().to_string_lossy().to_string();
            assert!(listed.contains(&name), "{name} is not in answers.txt");
            found += 1;
        }
    }
    assert_eq!(found, listed.len());
}

/// The log has all of them back to back.
#[test]
fn the_log_is_as_stated() {
    let bytes = file("all.log");
    let records = stated()
        .into_iter()
        .map(|line| file(&format!("{}.litmus", line.name)));
    assert_eq!(bytes, records.collect::<Vec<_>>().concat());
    let verdicts: Vec<u32> = log(&bytes).records.iter().map(|record| record.0).collect();
    let strong: Vec<u32> = stated().iter().map(|line| line.numbers[1]).collect();
    assert_eq!(verdicts, strong);
}

/// The guide has a row for each, which ends in the answer.
#[test]
fn the_guide_says_the_same() {
    let guide = text_file("README.md");
    for Stated {
        name,
        numbers: [weak, strong],
        finals,
    } in stated()
    {
        let finals: Vec<String> = finals.iter().map(u32::to_string).collect();
        let end = format!("| {weak} / {strong} | {} |", finals.join(", "));
        let start = format!("| `{name}` |");
        let row = guide.lines().find(|line| line.starts_with(&start));
        let row = row.unwrap_or_else(|| panic!("no row for {name}"));
        assert!(row.ends_with(&end), "{name}: {row}");
    }
}

/// The lines under a heading, up to the next.
fn section<'a>(guide: &'a str, heading: &'a str) -> impl Iterator<Item = &'a str> {
    let lines = guide.lines().skip_while(move |line| *line != heading);
    lines.skip(1).take_while(|line| !line.starts_with('#'))
}

/// The bytes that words state.
fn bytes<'a>(lines: impl Iterator<Item = &'a str>) -> Vec<u8> {
    let byte = |word| u8::from_str_radix(word, 16).expect("a byte");
    lines.flat_map(str::split_whitespace).map(byte).collect()
}

/// The bytes in the first column of the table under a heading.
fn annotated(guide: &str, heading: &str) -> Vec<u8> {
    bytes(section(guide, heading).filter_map(|line| line.strip_prefix("| `")?.split('`').next()))
}

#[test]
fn the_annotated_records_are_the_examples() {
    let guide = text_file("../docs/FORMAT.md");
    for name in ["small", "dekker", "hoist-dependency"] {
        let bytes = annotated(&guide, &format!("## An example: `{name}`"));
        assert_eq!(bytes, file(&format!("{name}.litmus")), "{name}");
    }
}

/// The text that the guide gives to start with is the example's.
#[test]
fn the_annotated_text_is_the_example() {
    let guide = text_file("../docs/FORMAT.md");
    let indented = |line: &str| format!("    {line}");
    let text: Vec<String> = text_file("dekker.txt").lines().map(indented).collect();
    assert!(guide.contains(&text.join("\n")));
}

/// The area that the guide shows, and what it says of it.
#[test]
fn the_annotated_area() {
    let guide = text_file("../docs/FORMAT.md");
    let lines = section(&guide, "## An area");
    let mut area = bytes(lines.filter_map(|line| line.strip_prefix("    ")));
    let (small, seven) = (file("small.litmus"), [1, 1, 1, 0, 0, 0, 0]);
    assert_eq!((area.len(), &area[1..20]), (30, &small[..]));
    for (answer, expected) in [
        (append(&mut area, &small, 30), Answer::refused(ROOM)),
        (append(&mut area, &seven, 30), Answer::refused(UNREPAIRED)),
        (repair(&mut area, 30), Answer::done(4)),
        (append(&mut area, &seven, 30), Answer::done(8)),
    ] {
        assert_eq!(answer, expected);
    }
}
