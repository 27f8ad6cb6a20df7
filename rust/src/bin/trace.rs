//! Says of traces of the storage subsystem whether each step may happen where it stands.

#[path = "shared/call.rs"]
mod call;
#[path = "shared/each.rs"]
mod each;
#[path = "shared/files.rs"]
mod files;
#[path = "shared/input.rs"]
mod input;

use call::{called, is_option, wrong_call};
use each::{tell_each, Finding};
use litmus::{read_trace, trace, Refusal, Steps, Traced};
use std::process::ExitCode;

const USAGE: &str = "\
usage: trace [FILE..]

Runs the traces of each FILE (standard input if there is none, or -), which may
lie back to back. A trace is a run of the storage subsystem of a POWER
processor: it accepts writes and barriers, propagates them to threads, commits
writes to one address to be one before the other (coherence), answers reads and
acknowledges syncs. Each step has conditions on what came before it.

For each trace it prints where it stands, its steps, and whether every step is
enabled. If so, the end state follows: the coherence order as far as it is
committed (0<2 says that write 0 comes before write 2), the events that have
been propagated to each thread, in order, and the syncs that have not been
acknowledged.

    message.trace, byte 0, 19 bytes long
      threads 2, initial values 0 0
      step 0: accept write 0 by thread 0: 1 to address 0
      step 1: accept barrier 0 by thread 0: lwsync
      step 2: accept write 1 by thread 0: 1 to address 1
      step 3: propagate write 0 to thread 1
      every step is enabled; at the end
        propagated to thread 0: write 0, barrier 0, write 1
        propagated to thread 1: write 0

Otherwise the steps end with the first that is not enabled, and the condition
that fails is told. Threads, addresses, steps, writes and barriers are numbered
from 0, writes and barriers each as they are accepted.

The program record makes traces of texts. What lies behind a trace that can't
be read is left aside. In a file's name a byte that is not printable is shown as
\\x and two digits, a space as \\x20 and a backslash as two.

The exit status is 0 if every step of every trace is enabled; 1 if some step is
not, or something can't be read; 2 if it is called in another way.
";

fn main() -> ExitCode {
    called(USAGE, |words| match words.iter().any(is_option) {
        true => wrong_call(USAGE),
        false => tell_each(words, run),
    })
}

/// What is printed of the trace that starts at a place of a file.
fn run(source: &str, start: usize, bytes: &[u8]) -> Result<Finding, Refusal> {
    let (steps, length) = read_trace(bytes)?;
    let traced = trace(bytes)?;
    let (shown, end) = match &traced {
        Traced::Accepted { end, .. } => (steps.steps, Some(end)),
        Traced::NotEnabled { step, .. } => (step + 1, None),
    };
    let mut lines = listed(&steps, shown);
    match end {
        Some(end) => {
            lines.push(format!("{traced}; at the end"));
            lines.extend(end.to_string().lines().map(|line| format!("  {line}")));
        }
        None => lines.push(traced.to_string()),
    }
    let head = format!("{source}, byte {start}, {length} bytes long\n");
    let lines = lines.iter().map(|line| format!("  {line}\n"));
    Ok(Finding {
        length,
        lines: head + &lines.collect::<String>(),
        good: end.is_some(),
    })
}

/// What a trace begins with, and as many of its steps.
fn listed(steps: &Steps, shown: usize) -> Vec<String> {
    let values = steps.initial[..steps.addresses].iter();
    let values: Vec<String> = values.map(u32::to_string).collect();
    let (threads, values) = (steps.threads, values.join(" "));
    let mut lines = vec![format!("threads {threads}, initial values {values}")];
    let each = steps.list().into_iter().take(shown).enumerate();
    lines.extend(each.map(|(i, step)| format!("step {i}: {step}")));
    lines
}
