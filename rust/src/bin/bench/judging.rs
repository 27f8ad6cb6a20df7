//! From bytes to the PPCs verdict, beside the ordinary implementation: the same records in one run,
//! accepted ones and such as break each of the rules.
//!
//! The implementations take turns on batches of records, and of each the best round of each batch
//! counts. In a batch of some hundred KB a processor learns the branches of all its records within
//! some rounds: the ordinary implementation then takes 7 microseconds for 64 events, and 12 for
//! records that were not seen before. A batch of 4 MB is more than that. It is also more than a
//! core's own caches hold, but the bytes are taken one after the other and so are fetched in time:
//! with 64 MB in a batch it takes 12 to 13.

#[cfg(before)]
use super::before;
use super::common::plain;
use super::inputs::{Inputs, Kind};
use litmus::{judge_raw, read_raw};
use ordinary::judge::PPCS;
use ordinary::limits::EVENTS;
use ordinary::{rows, Answer};
use std::hint::black_box;
use std::time::{Duration, Instant};

/// How many events the records of each half have.
const HALVES: [usize; 2] = [24, EVENTS];
/// How many records, accepted ones and refused ones, are in a quarter: a half has one with all threads
/// in one order, and one with each in its own.
const QUARTER: usize = 2_500;
/// How many events the records have that show how the cost grows. Each size has one batch.
const GROWING: [usize; 6] = [8, 16, 24, 32, 48, EVENTS];
/// How many bytes of records a batch may have.
const BATCH: usize = 1 << 22;
const ROUNDS: usize = 15;

/// From bytes to the verdict under PPCs, and reading alone. Reading moves the case out, of which
/// judging has no need, so that what is left for the verdict is a little too small.
struct Implementation {
    name: &'static str,
    judge: fn(&[u8]) -> Answer,
    read: fn(&[u8]) -> u32,
}

/// The first is compared with each of the others.
const IMPLEMENTATIONS: &[Implementation] = &[
    Implementation {
        name: "ours",
        judge: |record| plain(judge_raw(record, PPCS)),
        read: |record| read_raw(record).number,
    },
    Implementation {
        name: "ordinary",
        judge: |record| rows::judge(record, PPCS),
        read: |record| black_box(rows::read(record)).map_or_else(|refusal| refusal.number, |_| 0),
    },
    #[cfg(before)]
    Implementation {
        name: "before",
        judge: |record| plain(before::judge_raw(record, PPCS)),
        read: |record| before::read_raw(record).number,
    },
];

/// What so many records cost each implementation.
struct Costs {
    which: String,
    records: usize,
    each: Vec<Cost>,
}

#[derive(Clone, Copy)]
struct Cost {
    whole: Duration,
    reading: Duration,
}

impl Cost {
    /// The time from bytes to the verdict, of this reading, and the rest.
    fn parts(&self) -> [Duration; 3] {
        let verdict = self.whole.saturating_sub(self.reading);
        [self.whole, self.reading, verdict]
    }

    fn add(&mut self, more: Cost) {
        self.whole += more.whole;
        self.reading += more.reading;
    }
}

impl Costs {
    fn all_at(which: impl ToString, time: Duration) -> Costs {
        let (whole, reading) = (time, time);
        Costs {
            which: which.to_string(),
            records: 0,
            each: vec![Cost { whole, reading }; IMPLEMENTATIONS.len()],
        }
    }

    fn sum<'a>(which: impl ToString, parts: impl IntoIterator<Item = &'a Costs>) -> Costs {
        let mut sum = Costs::all_at(which, Duration::ZERO);
        for part in parts {
            sum.records += part.records;
            for (cost, &more) in sum.each.iter_mut().zip(&part.each) {
                cost.add(more);
            }
        }
        sum
    }
}

pub fn judging() {
    println!("microseconds a record; each batch's best of {ROUNDS} rounds, which take turns\n");
    for kind in [Kind::Accepted, Kind::Refused] {
        let records = 2 * QUARTER * HALVES.len();
        println!("{records} records of edition 1 that PPCs {kind}\n");
        let halves = HALVES.map(|events| half(kind, events));
        let all = Costs::sum("all", halves.iter().map(|[.., both]| both));
        let costs: Vec<Costs> = halves.into_iter().flatten().chain([all]).collect();
        println!();
        tables(&costs);
    }
    println!("accepted records of more and more events\n");
    tables(&GROWING.map(growing));
}

/// The quarters of one size, and both together.
fn half(kind: Kind, events: usize) -> [Costs; 3] {
    let [one_order, own_orders] = [false, true].map(|own| {
        let mut inputs = Inputs::new(kind, events, own);
        let costs = timed(&mut inputs);
        print!("{}", inputs.contents());
        costs
    });
    let both = Costs::sum(format!("{events} events"), [&one_order, &own_orders]);
    [one_order, own_orders, both]
}

/// A quarter, a batch at a time.
fn timed(inputs: &mut Inputs) -> Costs {
    let mut batches = Vec::new();
    let mut left = QUARTER;
    while left > 0 {
        let batch = inputs.batch(left, BATCH);
        left -= batch.len();
        batches.push(best(inputs, &batch));
    }
    Costs::sum(inputs, &batches)
}

fn growing(events: usize) -> Costs {
    let mut inputs = Inputs::new(Kind::Accepted, events, true);
    let batch = inputs.batch(usize::MAX, BATCH);
    best(&inputs, &batch)
}

/// The best time of each for a batch, on which they have to agree.
fn best(inputs: &Inputs, batch: &[Vec<u8>]) -> Costs {
    for record in batch {
        let mut answers = IMPLEMENTATIONS.iter().map(|each| (each.judge)(record));
        let first = answers.next();
        assert!(answers.all(|other| Some(other) == first), "{record:?}");
    }
    let mut best = Costs::all_at(inputs, Duration::MAX);
    best.records = batch.len();
    for _ in 0..ROUNDS {
        for (best, with) in best.each.iter_mut().zip(IMPLEMENTATIONS) {
            let whole = time(batch, |record| (with.judge)(record).number);
            best.whole = best.whole.min(whole);
            best.reading = best.reading.min(time(batch, with.read));
        }
    }
    best
}

fn time(batch: &[Vec<u8>], call: impl Fn(&[u8]) -> u32) -> Duration {
    let start = Instant::now();
    for record in batch {
        black_box(call(black_box(record)));
    }
    start.elapsed()
}

/// The first implementation beside each of the others.
fn tables(costs: &[Costs]) {
    for other in 1..IMPLEMENTATIONS.len() {
        let [first, second] = [0, other].map(|i| IMPLEMENTATIONS[i].name);
        let heads = format!("{first:>10} {second:>8}  ratio");
        let parts = ["bytes to verdict", "of this reading", "and the verdict"];
        println!(
            "{:21}{}",
            "",
            parts.map(|part| format!("{part:>26}")).concat()
        );
        println!("{:21}{}", "", heads.repeat(parts.len()));
        costs.iter().for_each(|costs| line(costs, other));
        println!();
    }
}

fn line(costs: &Costs, other: usize) {
    let [first, second] = [0, other].map(|i| {
        let micros = |time: Duration| time.as_secs_f64() * 1e6 / costs.records as f64;
        costs.each[i].parts().map(micros)
    });
    print!("{:21}", costs.which);
    for (first, second) in first.iter().zip(second) {
        print!("{first:10.3} {second:8.3} {:6.2}", first / second);
    }
    println!();
}
