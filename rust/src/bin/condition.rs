//! Says of records whether a condition on final memory and loaded values holds.

#[path = "shared/call.rs"]
mod call;
#[path = "shared/each.rs"]
mod each;
#[path = "shared/files.rs"]
mod files;
#[path = "shared/input.rs"]
mod input;
#[path = "shared/name.rs"]
mod name;

use call::{called, is_option, wrong_call, BAD_USAGE};
use each::{tell_each, Finding};
use litmus::{condition, read, Asked, Case, ConditionRefusal, Model, Refusal};
use litmus::{ADDRESSES, EDITION_1, EVENTS};
use name::name_of;
use std::ffi::OsStr;
use std::os::unix::ffi::OsStrExt;
use std::process::ExitCode;

const USAGE: &str = "\
usage: condition [--model MODEL] TEXT [FILE..]

Judges the records of each FILE (standard input if there is none, or -), which
may lie back to back, and says whether the condition TEXT holds:

    Dekker: holds

A line is a record: its name, and that the condition holds or does not hold,
that the case breaks a rule of the model, or that TEXT names an address or a
load that the case does not have. MODEL is ppcw or ppcs; without it, ppcs.

    m0=1               address 0 holds 1 at the end
    e2=0               event 2, a load, holds 0
    ~ m0=1             not
    m0=1 /\\ e2=0       and, which binds tighter than
    m0=1 \\/ e2=0       or
    ~(m0=1 \\/ e2=0)    brackets

Spaces may stand between tokens; m0, e2, /\\ and \\/ are one token each. Numbers
are decimal, without needless zeros in front. TEXT has at most 512 bytes, with
~ and brackets nested at most 16 deep. If it is no condition on any case, no
FILE is read.

What lies behind a record that can't be read is left aside. In a file's name a
byte that is not printable is shown as \\x and two digits, a space as \\x20 and a
backslash as two.

The exit status is 0 if the condition holds for every record; 1 if it does not
for some, or a case is not accepted, or something can't be read; 2 if TEXT is
no condition, or if it is called in another way.
";

fn main() -> ExitCode {
    called(USAGE, |words| match *words {
        [option, model, ref rest @ ..] if option == "--model" => match named(model) {
            Some(model) => ask_files(model, rest),
            None => wrong_call(USAGE),
        },
        _ => ask_files(Model::PpcS, words),
    })
}

fn named(model: &OsStr) -> Option<Model> {
    match model.to_str()? {
        "ppcw" => Some(Model::PpcW),
        "ppcs" => Some(Model::PpcS),
        _ => None,
    }
}

/// Asks the condition of the files, if that is what the words are.
fn ask_files(model: Model, words: &[&OsStr]) -> ExitCode {
    let [text, ref files @ ..] = *words else {
        return wrong_call(USAGE);
    };
    if words.iter().any(is_option) {
        return wrong_call(USAGE);
    }
    let text = text.as_bytes();
    if let Err(refusal) = widest().condition(Model::PpcW, text) {
        eprintln!("{refusal}");
        return ExitCode::from(BAD_USAGE);
    }
    tell_each(files, |_, _, record| ask(record, model, text))
}

/// A case that has every address and load that a case may have, and is accepted. A text that is
/// refused for it is refused for every case.
fn widest() -> Case {
    let mut case = Case {
        edition: EDITION_1.into(),
        threads: 1,
        addresses: ADDRESSES,
        events: EVENTS,
        kind: [Case::LOAD; EVENTS],
        ..Case::empty()
    };
    for (e, row) in case.rows[..EVENTS].iter_mut().enumerate() {
        *row = u64::MAX << e << 1; // the later events
    }
    case
}

/// The line of the record at the front.
fn ask(record: &[u8], model: Model, text: &[u8]) -> Result<Finding, Refusal> {
    let length = read(record)?;
    let asked = condition(record, model, text);
    let good = asked.as_ref().is_ok_and(|asked| asked.holds());
    let lines = format!("{}: {}\n", name_of(record), words(asked, model));
    Ok(Finding {
        length,
        lines,
        good,
    })
}

fn words(asked: Result<Asked, ConditionRefusal>, model: Model) -> String {
    match asked {
        Ok(Asked::Broken { rule, .. }) => format!("breaks rule {} of {model}", rule.0),
        Ok(asked) => asked.to_string(),
        Err(ConditionRefusal::Text(fault)) => {
            format!("{} (byte {} of the text)", fault.words(), fault.place)
        }
        Err(ConditionRefusal::Case(refusal)) => refusal.to_string(),
    }
}
