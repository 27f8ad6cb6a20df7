//! A short readable text to a trace, so that people can file traces by hand.

use super::front::Front;
use super::words::{lines, number, Checked};
use super::Error;
use crate::limits::{BARRIERS, STEPS, WRITES};
use crate::storage::{Step, Trace, LWSYNC, SYNC};

/// What the text may say.
pub const HELP: &str = "\
A trace is a text of lines such as these, the first of which is 'trace'.

    trace                             this is a trace and no case
    threads 2                         threads are 0 and 1
    addresses x y                     any words; as many addresses as words
    initial x=0 y=0                   optional; an address not named starts at 0
    accept write x=1 by thread 0      this is write 0
    accept sync by thread 0           this is barrier 0
    accept lwsync by thread 1         this is barrier 1
    propagate write 0 to thread 1
    propagate barrier 0 to thread 1
    commit write 0 before write 1     in the coherence order of their address
    read x=1 by thread 1              the read is answered with 1
    acknowledge barrier 0             the barrier is a sync

The lines from the first 'accept' on are steps here, taken in that order: at
most 128. Writes and barriers are numbered separately from 0 as accepted, at
most 16 writes and 8 barriers; a step names only those that a line above it
accepts. Values are 0 to 4294967295.
";

/// What the first line says.
const FIRST: &str = "trace";

/// What steps look like.
const ACCEPT: &str =
    "accept write x=1 by thread 0, accept sync by thread 0 or accept lwsync by thread 0";
const PROPAGATE: &str = "propagate write 0 to thread 1 or propagate barrier 0 to thread 1";
const COMMIT: &str = "commit write 0 before write 1";
const READ: &str = "read x=1 by thread 1";
const ACKNOWLEDGE: &str = "acknowledge barrier 0";

/// Whether a text is one of a trace: its first line that says anything begins with that word.
pub fn is_trace(text: &str) -> bool {
    let mut words = lines(text).filter_map(|(_, line)| line.split_whitespace().next());
    words.next() == Some(FIRST)
}

/// The trace that a text describes. It can be read, but its steps need not be enabled.
pub fn parse(text: &str) -> Result<Trace, Error> {
    let mut draft = Draft::default();
    let mut last = 1;
    for (line, stated) in lines(text) {
        last = line;
        let taken = draft.take(stated);
        taken.map_err(|message| Error { line, message })?;
    }
    let finished = draft.finish();
    finished.map_err(|message| Error {
        line: last,
        message,
    })
}

/// What the lines so far have said.
#[derive(Default)]
struct Draft {
    /// Whether one has said that this is a trace.
    begun: bool,
    front: Front,
    steps: Vec<Step>,
}

impl Draft {
    fn take(&mut self, line: &str) -> Checked<()> {
        let (word, rest) = line.split_once(char::is_whitespace).unwrap_or((line, ""));
        match word {
            "" => Ok(()),
            _ if !self.begun => self.begin(line),
            "threads" => self.front.take_threads(rest),
            "addresses" => self.front.take_addresses(rest),
            "initial" => self.front.take_initial(rest),
            "accept" | "propagate" | "commit" | "read" | "acknowledge" => self.take_step(line),
            _ => Err(format!(
                "a line starts with threads, addresses, initial, accept, propagate, commit, \
                 read or acknowledge, not with '{word}'"
            )),
        }
    }

    fn begin(&mut self, line: &str) -> Checked<()> {
        if line != FIRST {
            return Err(format!("the first line is '{FIRST}', not '{line}'"));
        }
        self.begun = true;
        Ok(())
    }

    fn take_step(&mut self, line: &str) -> Checked<()> {
        if self.steps.len() == STEPS {
            return Err(format!("a trace has at most {STEPS} steps"));
        }
        let words: Vec<&str> = line.split_whitespace().collect();
        let step = self.step(&words)?;
        self.steps.push(step);
        Ok(())
    }

    fn step(&self, words: &[&str]) -> Checked<Step> {
        match *words {
            ["accept", ref what @ .., "by", "thread", thread] => {
                self.accepted(what, self.front.thread(thread)?)
            }
            ["propagate", "write", write, "to", "thread", thread] => {
                let (write, thread) = (self.write(write)?, self.front.thread(thread)?);
                Ok(Step::PropagateWrite { write, thread })
            }
            ["propagate", "barrier", barrier, "to", "thread", thread] => {
                let (barrier, thread) = (self.barrier(barrier)?, self.front.thread(thread)?);
                Ok(Step::PropagateBarrier { barrier, thread })
            }
            ["commit", "write", first, "before", "write", second] => {
                let (first, second) = (self.write(first)?, self.write(second)?);
                Ok(Step::Commit { first, second })
            }
            ["read", ref access @ .., "by", "thread", thread] => {
                let (address, value) = self.front.access(&access.concat())?;
                Ok(Step::Respond {
                    thread: self.front.thread(thread)?,
                    address,
                    value,
                })
            }
            ["acknowledge", "barrier", barrier] => {
                let barrier = self.barrier(barrier)?;
                Ok(Step::Acknowledge { barrier })
            }
            _ => Err(unlike(words)),
        }
    }

    /// `write x=1`, `sync` or `lwsync`, by a thread.
    fn accepted(&self, what: &[&str], thread: usize) -> Checked<Step> {
        let class = match *what {
            ["write", ref access @ ..] => {
                room(self.writes(), WRITES, "writes")?;
                let (address, value) = self.front.access(&access.concat())?;
                return Ok(Step::AcceptWrite {
                    thread,
                    address,
                    value,
                });
            }
            ["sync"] => SYNC,
            ["lwsync"] => LWSYNC,
            _ => {
                let what = what.join(" ");
                return Err(format!("accept a write, a sync or an lwsync, not '{what}'"));
            }
        };
        room(self.barriers(), BARRIERS, "barriers")?;
        Ok(Step::AcceptBarrier { thread, class })
    }

    /// How many writes the steps so far accept.
    fn writes(&self) -> usize {
        let accepts = |step: &&Step| matches!(step, Step::AcceptWrite { .. });
        self.steps.iter().filter(accepts).count()
    }

    /// How many barriers they accept.
    fn barriers(&self) -> usize {
        let accepts = |step: &&Step| matches!(step, Step::AcceptBarrier { .. });
        self.steps.iter().filter(accepts).count()
    }

    fn write(&self, word: &str) -> Checked<usize> {
        accepted_above(word, self.writes(), "write")
    }

    fn barrier(&self, word: &str) -> Checked<usize> {
        accepted_above(word, self.barriers(), "barrier")
    }

    fn finish(self) -> Checked<Trace> {
        if !self.begun {
            return Err(format!("no line says '{FIRST}'"));
        }
        self.front.finish()?;
        Ok(Trace {
            threads: self.front.threads,
            initial: self.front.initial.into_iter().collect(),
            steps: self.steps,
        })
    }
}

fn room(count: usize, most: usize, what: &str) -> Checked<()> {
    if count == most {
        return Err(format!("a trace accepts at most {most} {what}"));
    }
    Ok(())
}

/// The number of one of so many.
fn accepted_above(word: &str, count: usize, what: &str) -> Checked<usize> {
    match count {
        0 => Err(format!("no line above accepts a {what}")),
        _ => number(word, 0, count - 1).map_err(|fault| format!("{what}: {fault}")),
    }
}

/// What is wrong with words that are no step of their kind.
fn unlike(words: &[&str]) -> String {
    let example = match words[0] {
        "accept" => ACCEPT,
        "propagate" => PROPAGATE,
        "commit" => COMMIT,
        "read" => READ,
        _ => ACKNOWLEDGE,
    };
    format!("'{}' should look like: {example}", words.join(" "))
}

#[cfg(test)]
mod tests {
    use super::*;
    use crate::limits::VALUE;
    use crate::storage::trace_numbers;

    const FRONT: &str = "trace\nthreads 2\naddresses x y\n";
    const WRITE: &str = "accept write x=1 by thread 0\n";
    const SYNC_LINE: &str = "accept sync by thread 0\n";

    fn fault(text: &str) -> String {
        parse(text).unwrap_err().to_string()
    }

    /// What is wrong with a line behind a write and a sync.
    fn fault_of(line: &str) -> String {
        let fault = fault(&format!("{FRONT}{WRITE}{SYNC_LINE}{line}\n# end"));
        fault.strip_prefix("line 6: ").expect(&fault).to_string()
    }

    #[test]
    fn every_line() {
        let text = "# comment\n\n  trace # this too\nthreads 2\naddresses x y\ninitial y=7\n\
                    accept write x=1 by thread 0\naccept sync by thread 0\n\
                    accept lwsync by thread 1\naccept  write y = 4294967295 by thread 1 # w\n\
                    propagate write 1 to thread 0\npropagate barrier 1 to thread 0\n\
                    commit write 0 before write 1\nread y=7 by thread 1\nread x = 0 by thread 0\n\
                    acknowledge barrier 0\n";
        assert!(is_trace(text));
        let numbers = [
            vec![2, 2, 0, 7, 10],
            vec![1, 0, 0, 1],
            vec![2, 0, 0],
            vec![2, 1, 1],
            vec![1, 1, 1, VALUE],
            vec![3, 1, 0],
            vec![4, 1, 0],
            vec![5, 0, 1],
            vec![6, 1, 1, 7],
            vec![6, 0, 0, 0],
            vec![7, 0],
        ];
        assert_eq!(trace_numbers(&parse(text).unwrap()), numbers.concat());
    }

    #[test]
    fn the_first_line_says_that_it_is_a_trace() {
        for text in ["trace", "\n# a\n trace\n", "trace 2", "trace\nname a"] {
            assert!(is_trace(text), "{text}");
        }
        for text in ["", "# trace", "name trace", "traces", "threads 1\ntrace"] {
            assert!(!is_trace(text), "{text}");
        }
        assert_eq!(
            fault("\ntrace 2"),
            "line 2: the first line is 'trace', not 'trace 2'"
        );
        assert_eq!(
            fault("threads 2"),
            "line 1: the first line is 'trace', not 'threads 2'"
        );
        assert_eq!(fault("# a\n\n"), "line 2: no line says 'trace'");
        let case = crate::text::parse("threads 1\ntrace").unwrap_err();
        let message = "line 2: the text of a trace says so in its first line";
        assert_eq!(case.to_string(), message);
    }

    #[test]
    fn the_front_must_be_there() {
        let threads = "line 1: no line says how many threads there are";
        assert_eq!(fault("trace"), threads);
        let addresses = "line 3: no line names the addresses";
        assert_eq!(fault("trace\nthreads 1\n"), addresses.replace('3', "2"));
        assert_eq!(fault("trace\nthreads 1\n#"), addresses);
        assert_eq!(
            fault("trace\nthreads 5"),
            "line 2: '5' is not a number from 1 to 4"
        );
        assert_eq!(
            fault("trace\nread x=0 by thread 0"),
            "line 2: first give the addresses, as in: addresses x y"
        );
        assert_eq!(
            fault("trace\naddresses x\nread x=0 by thread 0"),
            "line 3: first say how many threads there are, as in: threads 2"
        );
        assert_eq!(
            fault("trace\naddresses x\ninitial z=1"),
            "line 3: no address is named 'z' (there are: x)"
        );
        assert!(parse(FRONT).is_ok());
    }

    #[test]
    fn numbers_out_of_range() {
        let outside = |word: &str, most: u32| format!("'{word}' is not a number from 0 to {most}");
        let thread = |word| format!("thread: {}", outside(word, 1));
        let write = format!("write: {}", outside("1", 0));
        let barrier = format!("barrier: {}", outside("1", 0));
        for (line, expected) in [
            ("accept write x=1 by thread 2", thread("2")),
            ("accept lwsync by thread x", thread("x")),
            ("propagate write 0 to thread 2", thread("2")),
            ("propagate barrier 0 to thread -1", thread("-1")),
            ("read x=0 by thread 9", thread("9")),
            ("propagate write 1 to thread 0", write.clone()),
            ("commit write 1 before write 0", write.clone()),
            ("commit write 0 before write 1", write),
            ("propagate barrier 1 to thread 0", barrier.clone()),
            ("acknowledge barrier 1", barrier),
            (
                "accept write x=4294967296 by thread 0",
                outside("4294967296", VALUE),
            ),
            ("read x= by thread 0", outside("", VALUE)),
        ] {
            assert_eq!(fault_of(line), expected, "{line}");
        }
        let unnamed = "no address is named 'z' (there are: x y)";
        assert_eq!(fault_of("accept write z=1 by thread 0"), unnamed);
        assert_eq!(fault_of("read z=1 by thread 0"), unnamed);
    }

    /// A step names what lines above it accept.
    #[test]
    fn accepted_too_late() {
        for (line, what) in [
            ("propagate write 0 to thread 1", "write"),
            ("commit write 0 before write 0", "write"),
            ("propagate barrier 0 to thread 1", "barrier"),
            ("acknowledge barrier 0", "barrier"),
        ] {
            let expected = format!("line 4: no line above accepts a {what}");
            let accepted = format!("{FRONT}{line}\n{WRITE}{SYNC_LINE}");
            assert_eq!(fault(&accepted), expected);
        }
    }

    #[test]
    fn lines_that_are_no_steps() {
        for (line, example) in [
            ("accept write 0 x=1", ACCEPT),
            ("accept", ACCEPT),
            ("propagate 0 to 1", PROPAGATE),
            ("propagate write 0 to 1", PROPAGATE),
            ("propagate", PROPAGATE),
            ("commit 0 before 1", COMMIT),
            ("read 0 x=1", READ),
            ("acknowledge 0", ACKNOWLEDGE),
        ] {
            let expected = format!("'{line}' should look like: {example}");
            assert_eq!(fault_of(line), expected);
        }
        let accepted = |what| format!("accept a write, a sync or an lwsync, not '{what}'");
        assert_eq!(fault_of("accept isync by thread 0"), accepted("isync"));
        assert_eq!(fault_of("accept sync 0 by thread 0"), accepted("sync 0"));
        let access = "should look like: x=1";
        let fault = fault_of("accept write x by thread 0");
        assert_eq!(fault, format!("'x' {access}"));
        assert_eq!(fault_of("read by thread 0"), format!("'' {access}"));
        let words = "a line starts with threads, addresses, initial, accept, propagate, commit, \
                     read or acknowledge";
        assert_eq!(fault_of("name MP"), format!("{words}, not with 'name'"));
    }

    #[test]
    fn no_more_than_there_may_be() {
        let read = "read x=0 by thread 0\n";
        for (line, most, message) in [
            (WRITE, WRITES, "a trace accepts at most 16 writes"),
            (SYNC_LINE, BARRIERS, "a trace accepts at most 8 barriers"),
            (read, STEPS, "a trace has at most 128 steps"),
        ] {
            let text = |count| format!("{FRONT}{}", line.repeat(count));
            assert_eq!(parse(&text(most)).unwrap().steps.len(), most);
            let line = FRONT.lines().count() + most + 1;
            let expected = format!("line {line}: {message}");
            assert_eq!(fault(&text(most + 1)), expected);
        }
        let full = WRITE.repeat(WRITES) + &SYNC_LINE.repeat(BARRIERS);
        assert!(parse(&format!("{FRONT}{full}")).is_ok());
    }
}
