//! Kills processes at random moments.

use ordinary::random::Random;
use std::os::unix::process::ExitStatusExt;
use std::process::{Command, Stdio};
use std::thread::sleep;
use std::time::{Duration, Instant};

const SIGKILL: i32 = 9;

/// How long processes of a kind are let run: any part of a span. The first one runs to its end and
/// is timed. Then the span follows how many end before they are killed, which is some 1 in 3.
#[derive(Default)]
pub struct Pace {
    span: Option<Duration>,
}

/// How a process ended.
#[derive(Debug)]
pub struct Ending {
    pub killed: bool,
    /// How many records it said to have appended.
    pub appended: usize,
}

impl Pace {
    /// Starts a process, and kills it at a random moment if it has not ended by then.
    pub fn run(&mut self, random: &mut Random, command: &mut Command) -> Ending {
        let start = Instant::now();
        command.stdout(Stdio::piped()).stderr(Stdio::piped());
        let mut child = command.spawn().expect("it starts");
        if let Some(span) = self.span {
            sleep(span * random.below(1_000) as u32 / 1_000);
            child.kill().expect("it is there until it is waited for");
        }
        let output = child.wait_with_output().expect("it ends");
        let killed = output.status.signal() == Some(SIGKILL);
        assert!(killed || output.status.success(), "{output:?}");
        self.span = Some(match self.span {
            None => start.elapsed(),
            Some(span) if killed => span * 9 / 8,
            Some(span) => span * 4 / 5,
        });
        let printed = String::from_utf8(output.stdout).expect("text");
        let lines = printed.lines();
        Ending {
            killed,
            appended: lines.filter(|line| line.starts_with("appended")).count(),
        }
    }
}
