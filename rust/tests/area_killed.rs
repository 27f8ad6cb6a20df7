//! Processes that keep an area in a file are killed at random moments. What they said to have
//! appended is found, once and in order, and at most one record more. What lies behind that is
//! cleared, and the next process goes on.

#[path = "common/compile.rs"]
mod compile;
#[path = "area_killed/found.rs"]
mod found;
#[path = "area_killed/pace.rs"]
mod pace;
#[path = "area_killed/trial.rs"]
mod trial;

use compile::{compiled, root, temporary};
use ordinary::random::Random;
use pace::Pace;
use std::path::Path;
use std::process::Command;
use trial::Trial;

const PROGRAM: &str = env!("CARGO_BIN_EXE_area");
const C: &[&str] = &["cc", "-std=c99", "-O2"];

/// So many areas are filled at most until enough kills are met.
const AREAS: usize = 2_000;

/// What the kills met with.
#[derive(Debug, Default)]
struct Met {
    /// Processes that append.
    kills: usize,
    /// Those of them that left unfinished bytes.
    unfinished: usize,
    /// Repairs.
    repairs: usize,
    /// Those of them that had cleared a part.
    half_repaired: usize,
}

/// Kills processes, and holds what they leave to what they may.
struct Killer {
    random: Random,
    append: Pace,
    repair: Pace,
    met: Met,
}

impl Killer {
    fn new(seed: u64) -> Killer {
        Killer {
            random: Random::new(seed),
            append: Pace::default(),
            repair: Pace::default(),
            met: Met::default(),
        }
    }

    /// A process appends the next records.
    fn append(&mut self, trial: &mut Trial, count: usize, command: &mut Command) {
        let command = command.stdin(trial.offer(count));
        let ending = self.append.run(&mut self.random, command);
        trial.check_appended(count, &ending);
        self.met.kills += usize::from(ending.killed);
        self.met.unfinished += usize::from(trial.is_unfinished());
    }

    /// One process after the other clears what lies behind the last finished frame.
    fn repair(&mut self, trial: &mut Trial) {
        while trial.is_unfinished() {
            let mut command = Command::new(PROGRAM);
            command.arg("repair").arg(trial.file());
            let ending = self.repair.run(&mut self.random, &mut command);
            let cleared = trial.check_repaired(&ending);
            let half = cleared && trial.is_unfinished();
            self.met.repairs += usize::from(ending.killed);
            self.met.half_repaired += usize::from(half);
        }
    }

    /// The program fills an area with some records at a time.
    fn fill(&mut self) {
        let mut trial = Trial::new(&mut self.random, &temporary("killed"), 30);
        while trial.missing() > 0 {
            let count = self.random.from_to(1, 4).min(trial.missing());
            let mut command = Command::new(PROGRAM);
            command.arg("append").arg(trial.file()).arg("-");
            self.append(&mut trial, count, &mut command);
            self.repair(&mut trial);
        }
    }

    /// The C example fills an area with all records. It repairs what it finds when it starts.
    fn fill_in_c(&mut self, program: &Path) {
        let mut trial = Trial::new(&mut self.random, &temporary("killed_in_c"), 30);
        while trial.missing() > 0 {
            let count = trial.missing();
            let mut command = Command::new(program);
            command.arg(trial.file());
            self.append(&mut trial, count, &mut command);
        }
    }
}

/// Fills areas until enough is met.
fn until(mut killer: Killer, enough: impl Fn(&Met) -> bool, fill: impl Fn(&mut Killer)) {
    for _ in 0..AREAS {
        fill(&mut killer);
        if enough(&killer.met) {
            println!("{:?}", killer.met);
            return;
        }
    }
    panic!("{:?}", killer.met);
}

#[test]
fn the_program_is_killed() {
    let enough = |met: &Met| met.kills >= 100 && met.unfinished >= 10 && met.half_repaired >= 10;
    until(Killer::new(130), enough, Killer::fill);
}

/// Its stores are quick, so that few kills come between two of them, some 1 in 50; one has to.
#[test]
fn the_c_example_is_killed() {
    let source = root().join("examples/c/area.c");
    let program = compiled(C, &source, "c_killed");
    let enough = |met: &Met| met.kills >= 100 && met.unfinished >= 1;
    until(Killer::new(131), enough, |killer| {
        killer.fill_in_c(&program)
    });
}
