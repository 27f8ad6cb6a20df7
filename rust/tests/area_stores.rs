//! The program `area`, killed before each of its stores and syncs: stores are of one byte and come
//! in their order, and nothing is printed before the last sync.

#[path = "common/compile.rs"]
mod compile;

use compile::{compiled, temporary};
use ordinary::area::BLANK;
use ordinary::generate::short_records;
use ordinary::random::Random;
use std::fs;
use std::os::unix::process::ExitStatusExt;
use std::path::{Path, PathBuf};
use std::process::Command;

const SIGKILL: i32 = 9;
const SHARED: &[&str] = &["cc", "-std=c99", "-shared", "-fPIC"];

/// A record with bytes of FF: an initial value has them.
const GREATEST_VALUE: [u8; 11] = [1, 1, 1, 0xff, 0xff, 0xff, 0xff, 0x0f, 0, 0, 0];

/// What is done to a file.
#[derive(Clone, Copy)]
enum Step {
    Store(usize, u8),
    Sync,
}

/// The program, the files that it is run on, and what kills it.
struct Killed {
    file: PathBuf,
    record: PathBuf,
    kill_at: PathBuf,
}

impl Killed {
    fn new() -> Killed {
        let tests = Path::new(env!("CARGO_MANIFEST_DIR")).join("tests");
        let source = tests.join("area_stores/kill_at.c");
        Killed {
            file: temporary("stores.area"),
            record: temporary("stores.litmus"),
            kill_at: compiled(SHARED, &source, "kill_at.so"),
        }
    }

    /// The program does these steps to the file and prints a line, or is killed at any of them.
    fn expect(&self, words: &[&Path], mut bytes: Vec<u8>, steps: &[Step], line: &str) {
        let before = bytes.clone();
        for count in 0..=steps.len() {
            let step = steps.get(count);
            let (printed, signal) = match step {
                Some(_) => ("", Some(SIGKILL)),
                None => (line, None),
            };
            fs::write(&self.file, &before).expect("it is written");
            self.run(words, count, (&bytes, printed, signal));
            if let Some(&Step::Store(place, byte)) = step {
                bytes[place] = byte;
            }
        }
    }

    /// Runs it for so many steps, and holds what it leaves, prints and is killed by to that.
    fn run(&self, words: &[&Path], count: usize, expected: (&[u8], &str, Option<i32>)) {
        let mut program = Command::new(env!("CARGO_BIN_EXE_area"));
        program.args(words).env("KILL_AT", count.to_string());
        program.env("LD_PRELOAD", &self.kill_at);
        let output = program.output().expect("it starts");
        let left = fs::read(&self.file).expect("an area");
        let printed = String::from_utf8_lossy(&output.stdout);
        let found = (&left[..], &*printed, output.status.signal());
        assert_eq!(found, expected, "{words:?}, {count} steps");
    }
}

/// The stores of bytes from a place on that change a blank area.
fn stores(place: usize, bytes: &[u8]) -> Vec<Step> {
    let places = (place..).zip(bytes);
    let changing = places.filter(|&(_, &byte)| byte != BLANK);
    changing
        .map(|(place, &byte)| Step::Store(place, byte))
        .collect()
}

/// The record's bytes, a sync, the flag, a sync.
fn appends(killed: &Killed, area: Vec<u8>, end: usize, record: &[u8]) {
    let mut steps = stores(end + 1, record);
    steps.extend([Step::Sync, Step::Store(end, 0), Step::Sync]);
    fs::write(&killed.record, record).expect("it is written");
    let name = match litmus::name(record) {
        b"" => "(no name)".into(),
        name => String::from_utf8_lossy(name),
    };
    let length = record.len();
    let line = format!("appended {name}, {length} bytes, at byte {end}\n");
    let words = [Path::new("append"), &killed.file, &killed.record];
    killed.expect(&words, area, &steps, &line);
}

/// The bytes that are not FF, front to back, and a sync.
fn repairs(killed: &Killed, mut area: Vec<u8>, end: usize, dirt: &[u8]) {
    area[end + 1..][..dirt.len()].copy_from_slice(dirt);
    let blank = |step: Step| match step {
        Step::Store(place, _) => Step::Store(place, BLANK),
        Step::Sync => step,
    };
    let mut steps: Vec<Step> = stores(end + 1, dirt).into_iter().map(blank).collect();
    let line = format!("cleared {} bytes\n", steps.len());
    steps.push(Step::Sync);
    let words = [Path::new("repair"), &killed.file];
    killed.expect(&words, area, &steps, &line);
}

#[test]
fn stores_come_in_order() {
    let mut random = Random::new(140);
    let killed = Killed::new();
    let mut records = short_records(&mut random, 5, 60);
    records.push(GREATEST_VALUE.to_vec());
    let mut front = Vec::new();
    for record in records {
        let end = front.len();
        let mut area = front.clone();
        area.resize(end + 1 + record.len() + random.below(3), BLANK);
        repairs(&killed, area.clone(), end, &random.bytes(record.len()));
        repairs(&killed, area.clone(), end, &record);
        appends(&killed, area, end, &record);
        front.push(0);
        front.extend(record);
    }
}
