//! The worked traces, as the definitions have them in `Worked.antt`.

use ordinary::answer::DISABLED;
use ordinary::storage::{trace_bytes, Answer, Step, Trace};

const WORKED: &str = include_str!("../../../../crates/storage_model/specs/Worked.antt");
/// How many rows there are at least.
const ROWS: usize = 120;

/// A trace's bytes and its answer, but for the end state; and the row.
pub struct Row {
    pub bytes: Vec<u8>,
    pub answer: Answer,
    pub line: &'static str,
}

/// A row is a line: `accepts n m (initial) (steps)`, `refuses step condition n m (initial) (steps)` or
/// `reads number place length (bytes)`.
pub fn rows() -> Vec<Row> {
    let rows: Vec<Row> = WORKED.lines().filter_map(row).collect();
    assert!(rows.len() >= ROWS, "{} rows", rows.len());
    rows
}

fn row(line: &'static str) -> Option<Row> {
    let (word, rest) = line.trim().split_once(' ')?;
    let rest = rest
        .strip_suffix('∷')
        .filter(|rest| rest.starts_with(|c: char| c.is_ascii_digit()))?;
    let numbers: Vec<usize> = rest
        .split(' ')
        .map_while(|word| word.parse().ok())
        .collect();
    let mut answer = Answer::default();
    let bytes = match (word, &numbers[..]) {
        ("accepts", &[threads, addresses]) => {
            let bytes = trace_bytes(&trace(threads, addresses, rest));
            answer.length = bytes.len();
            bytes
        }
        ("refuses", &[step, condition, threads, addresses]) => {
            (answer.number, answer.step) = (DISABLED, step);
            answer.condition = condition as u32;
            trace_bytes(&trace(threads, addresses, rest))
        }
        ("reads", &[number, place, length]) => {
            answer.number = number as u32;
            (answer.place, answer.length) = (place, length);
            bytes(rest.splitn(4, ' ').last()?)
        }
        _ => panic!("no row: {line}"),
    };
    Some(Row {
        bytes,
        answer,
        line,
    })
}

fn trace(threads: usize, addresses: usize, rest: &str) -> Trace {
    let lists: Vec<&str> = rest.split('(').skip(1).collect();
    let [initial, steps] = lists[..] else {
        panic!("two lists: {rest}");
    };
    let initial = numbers(initial);
    assert_eq!(initial.len(), addresses);
    Trace {
        threads,
        initial: initial.into_iter().collect(),
        steps: steps.split('∷').filter_map(step).collect(),
    }
}

fn step(text: &str) -> Option<Step> {
    let (kind, _) = text.trim().split_once(' ')?;
    let fields = numbers(text);
    let at = |i: usize| fields[i] as usize;
    Some(match kind {
        "accept_write" => Step::AcceptWrite {
            thread: at(0),
            address: at(1),
            value: fields[2],
        },
        "accept_barrier" => Step::AcceptBarrier {
            thread: at(0),
            class: at(1),
        },
        "propagate_write" => Step::PropagateWrite {
            write: at(0),
            thread: at(1),
        },
        "propagate_barrier" => Step::PropagateBarrier {
            barrier: at(0),
            thread: at(1),
        },
        "commit" => Step::Commit {
            first: at(0),
            second: at(1),
        },
        "respond" => Step::Respond {
            thread: at(0),
            address: at(1),
            value: fields[2],
        },
        "acknowledge" => Step::Acknowledge { barrier: at(0) },
        _ => panic!("no step: {text}"),
    })
}

/// Lists of bytes, of which some stand there a number of times, joined by `++`.
fn bytes(text: &str) -> Vec<u8> {
    let mut all = Vec::new();
    for part in text.split("++") {
        let numbers = numbers(part);
        let (times, list) = match part.contains("repeated") {
            true => (numbers[0] as usize, &numbers[1..]),
            false => (1, &numbers[..]),
        };
        let list: Vec<u8> = list.iter().map(|&byte| byte as u8).collect();
        all.extend(list.repeat(times));
    }
    all
}

fn numbers(text: &str) -> Vec<u32> {
    let words = text.split(|c: char| !c.is_ascii_digit());
    words.filter_map(|word| word.parse().ok()).collect()
}
