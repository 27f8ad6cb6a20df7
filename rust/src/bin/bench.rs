//! Times the library beside an ordinary optimised reader and judge, its two tests of rule 11 beside
//! each other, a log and the program for logs beside the records one by one, areas, conditions and
//! traces beside an ordinary implementation's, and representatives beside all renumberings, on the
//! same input in one run. With the word `judging` it times reading and judging alone, and with
//! `traces` traces alone.

#[path = "bench/areas.rs"]
mod areas;
#[cfg(before)]
#[path = "bench/before.rs"]
mod before;
#[path = "record/built.rs"]
mod built;
#[path = "../../tests/common/mod.rs"]
mod common;
#[path = "bench/conditions.rs"]
mod conditions;
#[path = "bench/inputs.rs"]
mod inputs;
#[path = "bench/judging.rs"]
mod judging;
#[path = "../../tests/common/traces.rs"]
mod trace_answers;
#[path = "bench/traces.rs"]
mod traces;

use built::built;
use litmus::{condition_raw, Log, Rows, CONDITION_BYTES, RECORD_BYTES, RULES};
use ordinary::area::{BLANK, FINISHED};
use ordinary::judge::{PPCS, PPCW};
use ordinary::limits::{EDITIONS, EVENTS, NAME, PRINTABLE, THREADS};
use ordinary::permutation::COUNT;
use ordinary::random::Random;
use ordinary::{generate, rows, Case, Kind, Order};
use std::env;
use std::fs::{self, File};
use std::hint::black_box;
use std::path::Path;
use std::process::Command;
use std::time::{Duration, Instant};

/// How many records, and how many times every thread's order.
const INPUTS: usize = 500;
/// How many events each of them has.
const SIZES: [usize; 2] = [24, EVENTS];
const ROUNDS: usize = 40;
/// A log's pieces.
const PIECE: usize = 65_536;
/// How often the program's log has the records: its start weighs less the longer the log is.
const TIMES: [usize; 2] = [1, 8];
/// How many records are renumbered in all ways, which takes long.
const FEW: usize = 2;
const ORDINARY: &str = "                 ordinary";
const ONE_BY_ONE: &str = "records one by one   ours";
/// Where the programs are built.
const TARGET: &str = concat!(env!("CARGO_MANIFEST_DIR"), "/../target");

fn main() {
    match env::args().nth(1).as_deref() {
        Some("judging") => judging::judging(),
        Some("traces") => {
            print_rounds();
            traces::traces();
        }
        _ => {
            judging::judging();
            print_rounds();
            the_rest();
            traces::traces();
        }
    }
}

fn print_rounds() {
    println!("each time is the best of {ROUNDS} rounds, which take turns\n");
}

/// All but judging and traces.
fn the_rest() {
    for count in SIZES {
        for edition in EDITIONS {
            let records = records(edition, count);
            log("the same", &records);
            area("the same", &records);
        }
        orders(count);
    }
    log("some of each of these, in any order:", &mixed());
    ask();
    for edition in EDITIONS {
        let cases = accepted_cases(edition, EVENTS);
        assert!(cases.iter().all(every_thread_has_events));
        representatives(edition, &cases, "every thread has some of them");
        let mut random = Random::new(42);
        let cases = (0..INPUTS).map(|_| generate::last_rows_apart(&mut random, edition, EVENTS));
        let cases: Vec<Case> = cases.collect();
        representatives(
            edition,
            &cases,
            "all on one thread and address, orders alike up to their last row",
        );
        let cases = vec![generate::greatest(edition); INPUTS];
        representatives(edition, &cases, "every pair in every order");
    }
}

fn every_thread_has_events(case: &Case) -> bool {
    (0..THREADS).all(|p| case.events.iter().any(|event| event.thread == p))
}

/// The representative beside the ordinary implementation's, and beside the least of all that
/// renumbering gives.
fn representatives(edition: u32, cases: &[Case], which: &str) {
    let records: Vec<Vec<u8>> = cases.iter().map(record).collect();
    let bytes: usize = records.iter().map(Vec::len).sum();
    println!("{INPUTS} records of edition {edition}, {bytes} bytes");
    println!("{EVENTS} events each with full orders; {which}\n");
    for record in &records[..FEW] {
        assert_eq!(
            Ok(least_renumbering(record)),
            litmus::representative(record)
        );
    }

    let (mut out, mut ordinary_out) = (vec![0; RECORD_BYTES], vec![0; RECORD_BYTES]);
    let search = compare(
        &records,
        |record| u64::from(litmus::representative_raw(record, &mut out, 0).number),
        |record| u64::from(rows::representative(record, &mut ordinary_out, 0).number),
    );
    let unit = |time| each(time, INPUTS, "a record");
    search.print(["representative       ours", ORDINARY], unit, 2);

    let naive = compare(
        &records[..FEW],
        |record| u64::from(litmus::representative_raw(record, &mut out, 0).number),
        |record| u64::from(black_box(least_renumbering(record)).is_empty()),
    );
    let ours = format!("of {FEW} of them         ours");
    let all = format!("     all {} renumberings", COUNT * COUNT);
    naive.print([&ours, &all], |time| each(time, FEW, "a record"), 4);
}

/// The least of all that renumbering a record with the most threads and addresses gives.
fn least_renumbering(record: &[u8]) -> Vec<u8> {
    let mut least = record.to_vec();
    let mut other = least.clone();
    for q in 0..COUNT {
        for r in 0..COUNT {
            let answer = litmus::renumber_raw(record, q, r, &mut other, 0);
            assert_eq!(answer.number, 0, "every permutation fits");
            if other < least {
                std::mem::swap(&mut least, &mut other);
            }
        }
    }
    least
}

/// By the proved writer.
fn record(case: &Case) -> Vec<u8> {
    built(case).record().expect("a case without fault")
}

/// From bytes, beside the ordinary implementation. Records of edition 2 have lwsyncs and
/// dependencies.
fn records(edition: u32, count: usize) -> Vec<Vec<u8>> {
    let cases = accepted_cases(edition, count);
    let records: Vec<Vec<u8>> = cases.iter().map(record).collect();
    let bytes: usize = records.iter().map(Vec::len).sum();
    println!("{INPUTS} accepted records of edition {edition}, {bytes} bytes");
    println!(
        "{count} events each with full orders, and a full name; {}\n",
        contents(&cases)
    );

    let reading = compare(
        &records,
        |record| u64::from(litmus::read_raw(record).number),
        |record| black_box(rows::read(record)).map_or(1, |_| 0),
    );
    reading.print(
        ["reading              ours", ORDINARY],
        |time| rate(time, bytes),
        2,
    );

    let judging = compare(
        &records,
        |record| u64::from(litmus::judge_raw(record, PPCS).number),
        |record| u64::from(rows::judge(record, PPCS).number),
    );
    let heads = ["bytes to PPCs        ours", "verdict          ordinary"];
    judging.print(heads, |time| each(time, INPUTS, "a record"), 2);
    records
}

/// As many records of each edition and size, in any order.
fn mixed() -> Vec<Vec<u8>> {
    let kinds = EDITIONS.len() * SIZES.len();
    let mut cases = Vec::new();
    for edition in EDITIONS {
        for count in SIZES {
            cases.extend_from_slice(&accepted_cases(edition, count)[..INPUTS / kinds]);
        }
    }
    Random::new(43).shuffle(&mut cases);
    cases.iter().map(record).collect()
}

/// Records back to back as a log, in one piece and in many, beside judging each where it lies.
fn log(which: &str, records: &[Vec<u8>]) {
    let log = [records.concat()];
    let bytes = log[0].len();
    println!("{which} {INPUTS} records as a log, {bytes} bytes\n");
    for (size, head) in [
        (bytes, "a log in one piece   ours"),
        (PIECE, "in 64 KiB pieces     ours"),
    ] {
        let judging = compare(&log, |log| fed(log, size), |log| one_by_one(log));
        let heads = [head, ONE_BY_ONE];
        judging.print(heads, |time| each(time, INPUTS, "a record"), 3);
    }
    program(&log[0]);
}

/// Records in an area, walked; then each appended to an area that it fills, and the same cut before
/// the flag and repaired; beside the ordinary implementation.
fn area(which: &str, records: &[Vec<u8>]) {
    println!("{which} {INPUTS} records in an area\n");
    let unit = |time| each(time, INPUTS, "a record");
    let frames = records
        .iter()
        .map(|record| [&[FINISHED], &record[..]].concat());
    let area = [frames.collect::<Vec<Vec<u8>>>().concat()];
    let walking = compare(
        &area,
        |area| u64::from(litmus::area_records(area).count() != INPUTS),
        |area| u64::from(areas::walked(area) != Some((INPUTS, area.len()))),
    );
    walking.print(["walking              ours", ORDINARY], unit, 2);

    let (mut ours, mut theirs) = (vec![BLANK; RECORD_BYTES + 1], vec![BLANK; RECORD_BYTES + 1]);
    let appending = compare(
        records,
        |record| appended(&mut ours[..=record.len()], record),
        |record| appended_ordinarily(&mut theirs[..=record.len()], record),
    );
    appending.print(["an append            ours", ORDINARY], unit, 2);
    let repairing = compare(
        records,
        |record| repaired(&mut ours[..=record.len()], record),
        |record| repaired_ordinarily(&mut theirs[..=record.len()], record),
    );
    let heads = ["one cut and repaired ours", ORDINARY];
    repairing.print(heads, unit, 2);
}

/// 0 where the record is appended to a blank area, which is blank again afterwards.
fn appended(area: &mut [u8], record: &[u8]) -> u64 {
    let answer = litmus::area_append_raw(area, record, u64::MAX);
    area.fill(BLANK);
    u64::from(answer.number)
}

fn appended_ordinarily(area: &mut [u8], record: &[u8]) -> u64 {
    let made = areas::append(area, record, usize::MAX);
    area.fill(BLANK);
    u64::from(made != Some(area.len()))
}

/// 0 where an append is cut before the flag, and what it left cleared.
fn repaired(area: &mut [u8], record: &[u8]) -> u64 {
    let made = litmus::area_append_raw(area, record, record.len() as u64);
    u64::from(made.number) + u64::from(litmus::area_repair_raw(area, u64::MAX).number)
}

fn repaired_ordinarily(area: &mut [u8], record: &[u8]) -> u64 {
    let made = areas::append(area, record, record.len());
    u64::from(made != Some(record.len())) + u64::from(areas::repair(area).is_none())
}

/// The program `judge_log` on a file, beside judging each record where it lies in a slice.
fn program(log: &[u8]) {
    let path = Path::new(TARGET).join("bin/judge_log");
    if !path.exists() {
        println!("there is no program judge_log: 'make judge_log' builds it\n");
        return;
    }
    let file = Path::new(TARGET).join("bench.log");
    for times in TIMES {
        let log = [log.repeat(times)];
        fs::write(&file, &log[0]).expect("it is written");
        let records = times * INPUTS;
        println!("the program judge_log on a file of {records} records, its start included\n");
        let judging = compare(
            &log,
            |_| judged_by_program(&path, &file, records),
            |log| one_by_one(log),
        );
        let heads = ["its start included   ours", ONE_BY_ONE];
        judging.print(heads, |time| each(time, records, "a record"), 3);
    }
    fs::remove_file(&file).expect("the file");
}

/// 0 where it prints that so many records are all accepted.
fn judged_by_program(path: &Path, log: &Path, records: usize) -> u64 {
    let mut command = Command::new(path);
    command.stdin(File::open(log).expect("a log"));
    let output = command.output().expect("it starts");
    let expected = format!("{records}\n{records}\n{}", "0\n".repeat(RULES + 2));
    u64::from(output.stdout != expected.as_bytes())
}

/// 0 where a log of so many accepted records is judged to its end.
fn fed(bytes: &[u8], size: usize) -> u64 {
    let mut log = Log::new();
    bytes.chunks(size).for_each(|piece| log.feed(piece));
    let found = log.finish();
    u64::from(found.refusal.is_some() || found.tally.accepted as usize != INPUTS)
}

/// 0 where every record is accepted.
fn one_by_one(bytes: &[u8]) -> u64 {
    let mut rest = bytes;
    let mut refused = 0;
    while !rest.is_empty() {
        let answer = litmus::judge_raw(rest, PPCS);
        refused += u64::from(answer.number);
        rest = &rest[answer.length as usize..];
    }
    refused
}

/// Conditions of the most bytes on a small record: the whole call, and reading and evaluating the
/// text alone, which of ours is the whole call less judging.
fn ask() {
    let record = conditions::RECORD;
    let (size, most) = (record.len(), CONDITION_BYTES);
    println!("conditions of {most} bytes on a record of {size} bytes\n");
    let outcome = conditions::outcome();
    for (kind, text) in conditions::texts() {
        println!("{kind}: {}\n", conditions::start(&text));
        let texts = vec![text; INPUTS];
        let unit = |time| each(time, INPUTS, "a text");
        let call = |text: &Vec<u8>| u64::from(condition_raw(record, PPCW, text).number);
        let whole = compare(&texts, call, |text| {
            u64::from(rows::ask(record, PPCW, text).answer.number)
        });
        whole.print(["the whole call       ours", ORDINARY], unit, 2);

        let judging = compare(
            &texts,
            |_| u64::from(litmus::judge_raw(record, PPCW).number),
            |text| u64::from(conditions::held(text, &outcome).is_none()),
        );
        let text = Times {
            first: whole.first.saturating_sub(judging.first),
            second: judging.second,
        };
        text.print(["its text alone       ours", ORDINARY], unit, 2);
    }
}

/// Rule 11 alone: the test that judging uses beside the plain one.
fn orders(count: usize) {
    let orders = total_orders(count);
    println!("{INPUTS} times {THREADS} total orders of {count} events\n");
    let test = compare(
        &orders,
        |rows| u64::from(litmus::rule11(rows, THREADS, count) != Some(true)),
        |rows| u64::from(litmus::rule11_by_threes(rows, THREADS, count) != Some(true)),
    );
    let unit = format!("for {THREADS} orders");
    let heads = ["rule 11     a row at once", "       every three events"];
    test.print(heads, |time| each(time, INPUTS, &unit), 3);
}

fn accepted_cases(edition: u32, count: usize) -> Vec<Case> {
    let mut random = Random::new(40);
    let cases = (0..INPUTS).map(|_| {
        let mut case = generate::full(&mut random, edition, count);
        case.name = vec![*PRINTABLE.end(); NAME];
        case
    });
    cases.collect()
}

/// How much of what the editions differ in these cases have.
fn contents(cases: &[Case]) -> String {
    let events = cases.iter().flat_map(|case| &case.events);
    let [syncs, lwsyncs] = [Kind::Sync, Kind::Lwsync]
        .map(|kind| events.clone().filter(|event| event.kind == kind).count());
    let dependencies: usize = cases.iter().map(|case| case.dependencies().len()).sum();
    format!("in all {syncs} syncs, {lwsyncs} lwsyncs, {dependencies} dependencies")
}

/// For each thread a total order of its own of so many events.
fn total_orders(count: usize) -> Vec<Rows> {
    let mut random = Random::new(41);
    (0..INPUTS)
        .map(|_| {
            let mut rows = [0; THREADS * EVENTS];
            for thread in rows.chunks_mut(EVENTS) {
                let mut sequence: Vec<usize> = (0..count).collect();
                random.shuffle(&mut sequence);
                for (a, b) in Order::total(&sequence).pairs(count) {
                    thread[a] |= 1 << b;
                }
            }
            rows
        })
        .collect()
}

/// The best time of each for all inputs.
struct Times {
    first: Duration,
    second: Duration,
}

impl Times {
    fn ratio(&self) -> f64 {
        self.first.as_secs_f64() / self.second.as_secs_f64()
    }

    /// A line for each and one for the ratio, with so many decimals.
    fn print(&self, heads: [&str; 2], shown: impl Fn(Duration) -> String, decimals: usize) {
        println!("{}  {}", heads[0], shown(self.first));
        println!("{}  {}", heads[1], shown(self.second));
        println!("                    ratio  {:.decimals$}\n", self.ratio());
    }
}

/// Both give 0 for every input, or the times would mean nothing.
fn compare<T>(
    inputs: &[T],
    mut first: impl FnMut(&T) -> u64,
    mut second: impl FnMut(&T) -> u64,
) -> Times {
    let mut best = Times {
        first: Duration::MAX,
        second: Duration::MAX,
    };
    for _ in 0..ROUNDS {
        best.first = best.first.min(time(inputs, &mut first));
        best.second = best.second.min(time(inputs, &mut second));
    }
    best
}

fn time<T>(inputs: &[T], mut call: impl FnMut(&T) -> u64) -> Duration {
    let start = Instant::now();
    let total: u64 = inputs.iter().map(|input| call(black_box(input))).sum();
    let taken = start.elapsed();
    assert_eq!(total, 0, "every input is accepted");
    taken
}

fn rate(time: Duration, bytes: usize) -> String {
    let per_second = bytes as f64 / time.as_secs_f64();
    format!("{:7.1} million bytes a second", per_second / 1e6)
}

fn each(time: Duration, inputs: usize, unit: &str) -> String {
    let micros = time.as_secs_f64() * 1e6 / inputs as f64;
    format!("{micros:7.3} microseconds {unit}")
}
