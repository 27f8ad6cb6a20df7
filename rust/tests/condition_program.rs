//! The program `condition`, and the conditions of `examples/`.

#[path = "common/command.rs"]
mod command;

use command::{examples, folder, run};
use litmus::{condition, Asked, Model, CONDITION_BYTES, CONDITION_DEPTH};
use ordinary::condition::ask;
use std::collections::BTreeSet;
use std::ffi::OsStr;
use std::fs;
use std::os::unix::ffi::OsStrExt;
use std::path::Path;

const PROGRAM: &str = env!("CARGO_BIN_EXE_condition");

fn expect(folder: &Path, words: &[&str], bytes: &[u8], expected: (&str, &str, i32)) {
    command::expect(PROGRAM, folder, words, bytes, expected);
}

fn example(name: &str) -> Vec<u8> {
    fs::read(examples().join(name)).expect("a record")
}

/// A line of `conditions.txt`.
struct Stated {
    file: String,
    /// Under PPCw and under PPCs.
    answers: [String; 2],
    text: String,
}

fn stated() -> Vec<Stated> {
    let table = fs::read_to_string(examples().join("conditions.txt")).expect("a table");
    let lines = table.lines().filter(|line| !line.starts_with('#'));
    let lines = lines.filter(|line| !line.is_empty());
    lines.map(stated_in).collect()
}

fn stated_in(line: &str) -> Stated {
    let mut rest = line;
    let mut word = || {
        let (word, behind) = rest.split_once(' ').expect(line);
        rest = behind.trim_start();
        word.to_string()
    };
    Stated {
        file: word() + ".litmus",
        answers: [word(), word()],
        text: rest.to_string(),
    }
}

/// As the table has it.
fn answer(asked: Asked) -> String {
    match asked {
        Asked::Accepted { holds: true, .. } => "yes".to_string(),
        Asked::Accepted { holds: false, .. } => "no".to_string(),
        Asked::Broken { rule, .. } => rule.0.to_string(),
    }
}

/// As the program has it, with its exit status.
fn told(answer: &str, model: Model) -> (String, i32) {
    match answer {
        "yes" => ("holds".to_string(), 0),
        "no" => ("does not hold".to_string(), 1),
        rule => (format!("breaks rule {rule} of {model}"), 1),
    }
}

/// By the library, by the other implementation and by the program.
#[test]
fn the_conditions_of_the_examples() {
    let models = [(Model::PpcW, "ppcw"), (Model::PpcS, "ppcs")];
    for Stated {
        file,
        answers,
        text,
    } in stated()
    {
        let record = example(&file);
        let name = String::from_utf8_lossy(litmus::name(&record));
        for ((model, word), stated) in models.into_iter().zip(answers) {
            let asked = condition(&record, model, text.as_bytes()).expect("a condition");
            assert_eq!(answer(asked), stated, "{file} under {model}: {text}");
            let plain = ask(&record, model as u64, text.as_bytes());
            assert_eq!(plain.holds, stated == "yes", "{file} under {model}: {text}");
            let (words, status) = told(&stated, model);
            let line = format!("{name}: {words}\n");
            let words = ["--model", word, &text, &file];
            expect(&examples(), &words, b"", (&line, "", status));
        }
    }
}

#[test]
fn every_example_is_asked() {
    let asked: BTreeSet<String> = stated().into_iter().map(|line| line.file).collect();
    for entry in fs::read_dir(examples()).expect("examples") {
        let file = entry.expect("an entry").file_name();
        let file = file.into_string().expect("a name");
        assert!(
            !file.ends_with(".litmus") || asked.contains(&file),
            "{file}"
        );
    }
}

/// Files, records back to back, and standard input.
#[test]
fn a_line_for_each_record() {
    let folder = folder("asked_records");
    let nameless = [1, 1, 1, 7, 0, 0, 0];
    let both = [&example("dekker.litmus")[..], &nameless].concat();
    fs::write(folder.join("both"), &both).expect("it is written");
    fs::write(folder.join("seven"), nameless).expect("it is written");
    fs::write(folder.join("empty"), b"").expect("it is written");
    let lines = "Dekker: breaks rule 16 of PPCs\n(no name): holds\n";
    expect(&folder, &["m0=7", "both"], b"", (lines, "", 1));
    expect(&folder, &["m0=7"], &both, (lines, "", 1));
    expect(&folder, &["m0=7", "-"], &both, (lines, "", 1));
    let lines = "(no name): holds\nDekker: does not hold\n(no name): holds\n";
    let words = ["--model", "ppcw", "m0=7", "seven", "empty", "-"];
    expect(&folder, &words, &both, (lines, "", 1));
    expect(
        &folder,
        &["m0=7", "seven", "seven"],
        b"",
        ("(no name): holds\n(no name): holds\n", "", 0),
    );
    expect(&folder, &["m0=7"], b"", ("", "", 0));
}

/// What some cases have and others do not.
#[test]
fn addresses_and_loads_that_a_case_does_not_have() {
    let files = ["dekker.litmus", "small.litmus"];
    for (text, lines) in [
        (
            "m1=1",
            "Dekker: holds\na: there is no such address (byte 1 of the text)\n",
        ),
        (
            r"m0=1 /\ e1=1",
            "Dekker: there is no such load (byte 9 of the text)\na: holds\n",
        ),
    ] {
        let words = [&["--model", "ppcw", text][..], &files].concat();
        expect(&examples(), &words, b"", (lines, "", 1));
    }
}

/// A text that is no condition on any case ends it before any file is read.
#[test]
fn faulty_texts() {
    for (text, errors) in [
        (
            r"m0=1 /\ (e2=0 \/ e5=0",
            r"21: a bracket is not closed (byte 21)
    m0=1 /\ (e2=0 \/ e5=0
                         ^
",
        ),
        (
            "m0=01",
            "21: a number may not begin with a needless zero (byte 3)\n    m0=01\n       ^\n",
        ),
        (
            "m4=0",
            "3: there is no such address (byte 1)\n    m4=0\n     ^\n",
        ),
        (
            "e64=0",
            "3: there is no such load (byte 1)\n    e64=0\n     ^\n",
        ),
    ] {
        let errors = format!("the text is refused with {errors}");
        for file in ["no such file", "dekker.litmus"] {
            expect(&examples(), &[text, file], b"", ("", &errors, 2));
        }
    }
    let words = [
        OsStr::from_bytes(b"m0=1\xff\x1b"),
        OsStr::new("small.litmus"),
    ];
    let output = run(PROGRAM, &examples(), &words, b"");
    assert_eq!(
        String::from_utf8_lossy(&output.stderr),
        "the text is refused with 21: /\\ or \\/ has to stand here, not the byte 0xff (byte 4)\n    m0=1??\n        ^\n"
    );
}

/// The records before one that can't be read, and those of other files, are still asked.
#[test]
fn says_what_is_wrong() {
    let folder = folder("asked_bad_files");
    let small = example("small.litmus");
    let mut unprintable = small.clone();
    unprintable[18] = b'\n';
    fs::write(folder.join("cut"), [&small[..], &small[..5], b""].concat()).expect("a file");
    fs::write(folder.join("odd"), [&unprintable[..], &small].concat()).expect("a file");
    fs::write(folder.join("good"), &small).expect("a file");
    let errors = "\
        cut: refused with 1: the bytes end inside a number or the name (byte 24)\n\
        odd: refused with 23: a byte of the name is not printable ASCII (byte 18)\n\
        none: No such file or directory (os error 2)\n\
        standard input: refused with 3: a number is outside its range (byte 19)\n";
    let words = ["e1=1", "cut", "odd", "none", "good", "-"];
    let input = [&small[..], &[9]].concat();
    expect(
        &folder,
        &words,
        &input,
        ("a: holds\na: holds\na: holds\n", errors, 1),
    );
}

#[test]
fn helps() {
    let folder = examples();
    let help = run(PROGRAM, &folder, &[OsStr::new("--help")], b"");
    assert!(help.status.success() && help.stderr.is_empty());
    let help = String::from_utf8(help.stdout).expect("text");
    assert!(help.starts_with("usage: condition [--model MODEL] TEXT [FILE..]\n"));
    assert!(help.lines().all(|line| line.len() <= 80), "{help}");
    let words = help.split_whitespace().collect::<Vec<_>>().join(" ");
    assert!(words.contains(&format!("at most {CONDITION_BYTES} bytes")));
    assert!(words.contains(&format!("nested at most {CONDITION_DEPTH} deep")));
    let wrong_calls: [&[&str]; 6] = [
        &[],
        &["--model"],
        &["--model", "ppcw"],
        &["--model", "sc", "m0=1", "small.litmus"],
        &["m0=1", "--model", "ppcw", "small.litmus"],
        &["--all", "m0=1"],
    ];
    for words in wrong_calls {
        expect(&folder, words, b"", ("", &help, 2));
    }
}
