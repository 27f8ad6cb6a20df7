//! A short readable text to a case, so that people can file cases by hand.

mod front;
pub mod trace;
mod words;

use crate::case::{unprintable, Case, Class, Dependency, Event, Order};
use crate::limits::{DEPENDENCIES, EVENTS, FIRST, NAME, SECOND};
use front::Front;
use std::fmt;
use words::{lines, number, once, split, Checked};

/// What the text may say.
pub const HELP: &str = "\
A case is a text of lines such as these; # starts a comment.

    edition 2                       optional; if no line says it, 2 with an
                                    lwsync or a dependency, otherwise 1
    name Dekker                     optional; only printable ASCII characters
    threads 2                       threads are 0 and 1
    addresses x y                   any words; as many addresses as words
    initial x=0 y=0                 optional; an address not named starts at 0
    event store 0 x=1               thread 0 stores 1 to x; this is event 0
    event sync 0                    event 1
    event load 0 y=0                event 2: thread 0 loads y and gets 0
    event lwsync 1                  event 3; not in edition 1
    dependency data 2 5             event 5 depends on load 2 by data; or say
                                    address or control; not in edition 1
    write-order x: 0                the stores to x, first to last; may be left
                                    out where an address has at most one store
    order 0 closed: 0<1<2, 0<5      thread 0's order, and all that follows from
                                    these pairs by transitivity
    order 1 pairs: 3<4, 3<5         thread 1's order: these pairs and no others

Values are 0 to 4294967295. Events are numbered from 0 as listed. A thread's
program order is the order in which its events are listed. A thread without an
order line has no pairs. What depends on a load is listed after it in the same
thread: a load or a store by address, a store by data or control. Dependencies
may stand in any order after the events that they name.
";

/// What is wrong with a text, and in which line.
#[derive(Clone, Debug, PartialEq, Eq)]
pub struct Error {
    pub line: usize,
    pub message: String,
}

impl fmt::Display for Error {
    fn fmt(&self, f: &mut fmt::Formatter) -> fmt::Result {
        write!(f, "line {}: {}", self.line, self.message)
    }
}

impl std::error::Error for Error {}

/// The case that a text describes. It can be read, but it need not be accepted.
pub fn parse(text: &str) -> Result<Case, Error> {
    let mut draft = Draft::new();
    for (number, line) in lines(text) {
        draft.line = number;
        let taken = draft.take(line);
        taken.map_err(|message| draft.error(message))?;
    }
    draft.finish()
}

/// What the lines so far have said.
struct Draft {
    line: usize,
    front: Front,
    case: Case,
    /// The edition that a line states.
    edition: Option<u32>,
    /// For each address, the line that gave its write order.
    written: Vec<Option<usize>>,
    /// For each thread, the line that gave its order.
    ordered: Vec<Option<usize>>,
}

impl Draft {
    fn new() -> Draft {
        Draft {
            line: 1,
            front: Front::default(),
            case: Case::empty(0, 0),
            edition: None,
            written: Vec::new(),
            ordered: Vec::new(),
        }
    }

    fn error(&self, message: String) -> Error {
        let line = self.line;
        Error { line, message }
    }

    fn take(&mut self, line: &str) -> Checked<()> {
        let (word, rest) = line.split_once(char::is_whitespace).unwrap_or((line, ""));
        match word {
            "" => Ok(()),
            "edition" => self.take_edition(rest.trim()),
            "name" => self.take_name(rest.trim()),
            "threads" => self.take_threads(rest),
            "addresses" => self.take_addresses(rest),
            "initial" => self.front.take_initial(rest),
            "event" => self.take_event(rest),
            "dependency" => self.take_dependency(rest),
            "write-order" => self.take_write_order(rest),
            "order" => self.take_order(rest),
            "trace" => Err("the text of a trace says so in its first line".to_string()),
            _ => Err(format!(
                "a line starts with edition, name, threads, addresses, initial, event, \
                 dependency, write-order or order, not with '{word}'"
            )),
        }
    }

    fn take_edition(&mut self, edition: &str) -> Checked<()> {
        once(self.edition.is_none(), "the edition")?;
        let edition = number(edition, FIRST as usize, SECOND as usize)? as u32;
        if edition < self.case.edition {
            let what = "a line above has an lwsync or a dependency";
            return Err(format!("{what}, which edition {edition} does not have"));
        }
        self.edition = Some(edition);
        self.case.edition = edition;
        Ok(())
    }

    /// Makes this a case of the second edition.
    fn take_second(&mut self, what: &str) -> Checked<()> {
        if self.edition == Some(FIRST) {
            return Err(format!("edition {FIRST} has no {what}"));
        }
        self.case.edition = SECOND;
        Ok(())
    }

    fn take_name(&mut self, name: &str) -> Checked<()> {
        if name.len() > NAME {
            return Err(format!("a name has at most {NAME} bytes"));
        }
        // All before an unprintable byte is ASCII, so a character starts there.
        let odd = unprintable(name.as_bytes()).and_then(|at| name[at..].chars().next());
        if let Some(odd) = odd {
            let only = "a name has only printable ASCII characters";
            return Err(format!("{only}, not {odd:?}"));
        }
        self.case.name = name.as_bytes().to_vec();
        Ok(())
    }

    fn take_threads(&mut self, count: &str) -> Checked<()> {
        self.front.take_threads(count)?;
        self.case.orders = vec![Order::new(); self.front.threads];
        self.ordered = vec![None; self.front.threads];
        Ok(())
    }

    fn take_addresses(&mut self, names: &str) -> Checked<()> {
        self.front.take_addresses(names)?;
        let count = self.front.addresses.len();
        self.case.write_orders = vec![Vec::new(); count];
        self.written = vec![None; count];
        Ok(())
    }

    fn take_event(&mut self, event: &str) -> Checked<()> {
        let words: Vec<&str> = event.split_whitespace().collect();
        let (&kind, rest) = words.split_first().unwrap_or((&"", &[]));
        let (&thread, access) = rest.split_first().unwrap_or((&"", &[]));
        let thread = self.front.thread(thread)?;
        let access = access.concat();
        let event = match kind {
            "sync" if access.is_empty() => Event::sync(thread),
            "lwsync" if access.is_empty() => {
                self.take_second("lwsync")?;
                Event::lwsync(thread)
            }
            "sync" | "lwsync" => {
                let article = if kind == "sync" { "a" } else { "an" };
                return Err(format!("{article} {kind} has no address: '{access}'"));
            }
            "load" => {
                let (address, value) = self.front.access(&access)?;
                Event::load(thread, address, value)
            }
            "store" => {
                let (address, value) = self.front.access(&access)?;
                Event::store(thread, address, value)
            }
            _ => {
                let kinds = "load, store, sync or lwsync";
                return Err(format!("an event is a {kinds}, not '{kind}'"));
            }
        };
        if self.case.events.len() == EVENTS {
            return Err(format!("a case has at most {EVENTS} events"));
        }
        self.case.events.push(event);
        Ok(())
    }

    fn take_dependency(&mut self, line: &str) -> Checked<()> {
        self.take_second("dependencies")?;
        let [class, from, to] = line.split_whitespace().collect::<Vec<_>>()[..] else {
            let example = "dependency data 0 2";
            return Err(format!("'{}' should look like: {example}", line.trim()));
        };
        let class = match class {
            "address" => Class::Address,
            "data" => Class::Data,
            "control" => Class::Control,
            _ => return Err(format!("say address, data or control, not '{class}'")),
        };
        let (from, to) = (self.event(from)?, self.event(to)?);
        let dependency = Dependency { from, to, class };
        if let Some(why) = self.case.unfit(dependency, None) {
            return Err(format!("from event {from} to event {to}: {why}"));
        }
        let all = &mut self.case.dependencies;
        let Err(place) = all.binary_search(&dependency) else {
            return once(false, "this dependency");
        };
        if all.len() == DEPENDENCIES {
            return Err(format!("a case has at most {DEPENDENCIES} dependencies"));
        }
        all.insert(place, dependency);
        Ok(())
    }

    fn take_write_order(&mut self, line: &str) -> Checked<()> {
        let (address, stores) = split(line, ':', "write-order x: 0 3")?;
        let address = self.front.address(address)?;
        once(self.written[address].is_none(), "this write-order")?;
        self.written[address] = Some(self.line);
        let stores = stores.split_whitespace().map(|e| self.event(e));
        self.case.write_orders[address] = stores.collect::<Checked<_>>()?;
        Ok(())
    }

    fn take_order(&mut self, line: &str) -> Checked<()> {
        let example = "order 0 closed: 0<1<2, 0<5";
        let (head, chains) = split(line, ':', example)?;
        let (thread, keyword) = split(head, ' ', example)?;
        let thread = self.front.thread(thread)?;
        once(self.ordered[thread].is_none(), "this thread's order")?;
        self.ordered[thread] = Some(self.line);
        let mut order = self.chains(chains)?;
        match keyword {
            "pairs" => {}
            "closed" => order.close(),
            _ => return Err(format!("say 'closed' or 'pairs', not '{keyword}'")),
        }
        self.case.orders[thread] = order;
        Ok(())
    }

    /// `0<1<2, 0<5` as the pairs 0<1, 1<2 and 0<5.
    fn chains(&self, chains: &str) -> Checked<Order> {
        let mut order = Order::new();
        for chain in chains.split(',').filter(|_| !chains.is_empty()) {
            let events = chain.split('<').map(|e| self.event(e.trim()));
            let events: Vec<usize> = events.collect::<Checked<_>>()?;
            if events.len() < 2 {
                return Err(format!("'{}' is no pair such as 0<1", chain.trim()));
            }
            for pair in events.windows(2) {
                order.insert(pair[0], pair[1]);
            }
        }
        Ok(order)
    }

    fn event(&self, word: &str) -> Checked<usize> {
        match self.case.events.len() {
            0 => Err("first list the events".into()),
            count => number(word, 0, count - 1).map_err(|fault| format!("event: {fault}")),
        }
    }

    fn finish(mut self) -> Result<Case, Error> {
        let front = self.front.finish();
        front.map_err(|message| self.error(message))?;
        for address in 0..self.front.addresses.len() {
            self.finish_write_order(address)?;
        }
        self.case.initial = self.front.initial;
        Ok(self.case)
    }

    /// Fills in a write order that needs no line, or checks the one given.
    fn finish_write_order(&mut self, address: usize) -> Result<(), Error> {
        let stores = self.case.stores_to(address);
        let name = &self.front.addresses[address];
        match self.written[address] {
            None if stores.len() < 2 => self.case.write_orders[address] = stores,
            None => {
                let message = format!(
                    "{name} has {} stores: a line 'write-order {name}: ..' says which came first",
                    stores.len()
                );
                return Err(self.error(message));
            }
            Some(line) => {
                let mut listed = self.case.write_orders[address].clone();
                listed.sort();
                if listed != stores {
                    let message = format!("list each store to {name} once: events {stores:?}");
                    return Err(Error { line, message });
                }
            }
        }
        Ok(())
    }
}

#[cfg(test)]
mod tests {
    use super::*;
    use crate::limits::{PRINTABLE, THREADS};

    const FRONT: &str = "threads 2\naddresses x y\n";

    fn fault(text: &str) -> String {
        parse(text).unwrap_err().to_string()
    }

    fn fault_after_front(text: &str) -> String {
        fault(&format!("{FRONT}{text}"))
    }

    #[test]
    fn a_whole_text() {
        let text = "# comment\nname two words # not this\nthreads 2\naddresses x y\ninitial y=7\n\
                    event store 0 x=1\nevent store 1 x = 2\nevent sync 1\nevent load 1 y=7\n\
                    write-order x: 1 0\norder 1 closed: 1<2<3, 0<1\norder 0 pairs: 0<1<3\n";
        let case = parse(text).unwrap();
        assert_eq!(case.name, b"two words");
        assert_eq!(case.initial, [0, 7]);
        let events = [
            Event::store(0, 0, 1),
            Event::store(1, 0, 2),
            Event::sync(1),
            Event::load(1, 1, 7),
        ];
        assert_eq!(case.events, events);
        assert_eq!(case.write_orders, [vec![1, 0], vec![]]);
        assert_eq!(case.orders[0].pairs(4), [(0, 1), (1, 3)]);
        assert_eq!(case.orders[1], Order::total(&[0, 1, 2, 3]));
        assert_eq!(case.fault(), 0);
    }

    const EVENTS_OF_TWO: &str = "event load 0 x=0\nevent store 1 x=1\nevent sync 0\n\
                                 event load 0 y=0\nevent store 0 y=1\n";

    #[test]
    fn the_edition_is_what_the_text_needs() {
        let edition = |text: &str| {
            let case = parse(&format!("{FRONT}{text}")).unwrap();
            assert_eq!(case.fault(), 0, "{text}");
            case.edition
        };
        assert_eq!(edition(""), FIRST);
        assert_eq!(edition("edition 1\nevent sync 0"), FIRST);
        assert_eq!(edition("edition 2"), SECOND);
        assert_eq!(edition("event lwsync 0"), SECOND);
        assert_eq!(edition("event lwsync 0\nedition 2"), SECOND);
        let dependency = format!("{EVENTS_OF_TWO}dependency address 0 3");
        assert_eq!(edition(&dependency), SECOND);
        let first = fault_after_front("edition 1\nevent lwsync 0");
        assert_eq!(first, "line 4: edition 1 has no lwsync");
        let last = fault_after_front("event lwsync 0\nedition 1");
        assert!(last.starts_with("line 4: a line above has an lwsync"));
        let first = format!("edition 1\n{dependency}");
        let first = fault_after_front(&first);
        assert_eq!(first, "line 9: edition 1 has no dependencies");
        let last = fault_after_front(&format!("{dependency}\nedition 1"));
        assert!(last.starts_with("line 9: a line above has an lwsync"));
        assert_eq!(
            fault("edition 3"),
            "line 1: '3' is not a number from 1 to 2"
        );
        let twice = fault("edition 2\nedition 2");
        assert_eq!(twice, "line 2: the edition was given before");
    }

    #[test]
    fn dependencies_are_sorted() {
        let text = format!(
            "{FRONT}{EVENTS_OF_TWO}dependency control 3 4\ndependency data 0 4\n\
             dependency address 0 4\ndependency address 0 3\n"
        );
        let dependency = |class, from, to| Dependency { from, to, class };
        let sorted = [
            dependency(Class::Address, 0, 3),
            dependency(Class::Address, 0, 4),
            dependency(Class::Data, 0, 4),
            dependency(Class::Control, 3, 4),
        ];
        assert_eq!(parse(&text).unwrap().dependencies, sorted);
    }

    #[test]
    fn unfit_dependencies_are_told_with_their_line() {
        let fault = |line: &str| {
            let fault = fault_after_front(&format!("{EVENTS_OF_TWO}dependency {line}"));
            fault.strip_prefix("line 8: ").expect(&fault).to_string()
        };
        assert_eq!(
            fault("address 4 3"),
            "from event 4 to event 3: only a load can be depended on"
        );
        assert_eq!(
            fault("address 3 0"),
            "from event 3 to event 0: the load must be listed before what depends on it"
        );
        assert_eq!(
            fault("data 0 1"),
            "from event 0 to event 1: both events must be of one thread"
        );
        assert_eq!(
            fault("address 0 2"),
            "from event 0 to event 2: only a load or a store can depend on a load"
        );
        assert_eq!(
            fault("control 0 3"),
            "from event 0 to event 3: only a store can depend on a load by data or control"
        );
        assert_eq!(fault("data 0 5"), "event: '5' is not a number from 0 to 4");
        let class = "say address, data or control, not 'value'";
        assert_eq!(fault("value 0 4"), class);
        assert_eq!(
            fault("data 0"),
            "'data 0' should look like: dependency data 0 2"
        );
        let twice = fault_after_front(&format!(
            "{EVENTS_OF_TWO}dependency data 0 4\n\ndependency data 0 4"
        ));
        assert_eq!(twice, "line 10: this dependency was given before");
    }

    #[test]
    fn too_many_dependencies() {
        let events = ["event load 0 x=0\n"; EVENTS].concat();
        let pairs = (0..EVENTS).flat_map(|from| (from + 1..EVENTS).map(move |to| (from, to)));
        let line = |(from, to): (usize, usize)| format!("dependency address {from} {to}\n");
        let lines: Vec<String> = pairs.map(line).collect();
        let case = |count: usize| parse(&format!("{FRONT}{events}{}", lines[..count].concat()));
        assert_eq!(case(DEPENDENCIES).unwrap().fault(), 0);
        let fault = case(DEPENDENCIES + 1).unwrap_err();
        let message = format!("a case has at most {DEPENDENCIES} dependencies");
        assert_eq!(fault.message, message);
        let last = FRONT.lines().count() + EVENTS + DEPENDENCIES + 1;
        assert_eq!(fault.line, last);
    }

    #[test]
    fn faults_name_their_line() {
        assert_eq!(
            fault("\nthreads 99"),
            format!("line 2: '99' is not a number from 1 to {THREADS}")
        );
        assert_eq!(
            fault("threads 1\nthreads 1"),
            "line 2: threads was given before"
        );
        assert_eq!(fault("threads 1"), "line 1: no line names the addresses");
        assert_eq!(
            fault("addresses x x"),
            "line 1: two addresses are named 'x'"
        );
        let unknown = fault_after_front("event load 0 q=1");
        assert_eq!(unknown, "line 3: no address is named 'q' (there are: x y)");
        let thread = fault_after_front("event load 2 x=1");
        assert_eq!(thread, "line 3: thread: '2' is not a number from 0 to 1");
        let event = fault_after_front("event sync 0\norder 0 pairs: 0<1");
        assert_eq!(event, "line 4: event: '1' is not a number from 0 to 0");
        let stores = fault_after_front("event store 0 x=1\nevent store 0 x=2");
        assert!(stores.starts_with("line 4: x has 2 stores"));
        let twice = fault_after_front("event store 0 x=1\nwrite-order x: 0 0\n# end");
        assert_eq!(twice, "line 4: list each store to x once: events [0]");
        let name = format!("name {}", "n".repeat(NAME + 1));
        assert!(fault(&name).starts_with("line 1: a name has at most"));
    }

    #[test]
    fn names_are_printable() {
        let name = |name: &str| parse(&format!("{FRONT}name {name}")).map(|case| case.name);
        let all: Vec<u8> = PRINTABLE.filter(|&byte| byte != b'#').collect();
        for part in all.chunks(NAME) {
            let part = std::str::from_utf8(part).unwrap().trim();
            assert_eq!(name(part), Ok(part.into()));
        }
        for (odd, shown) in [
            ("two\twords", r"'\t'"),
            ("a\u{1f}\tb", r"'\u{1f}'"),
            ("a\x7f", r"'\u{7f}'"),
            ("\0a", r"'\0'"),
            ("na\u{ef}ve\t.", "'\u{ef}'"),
            ("\u{20ac}", "'\u{20ac}'"),
            ("a\u{a0}b", r"'\u{a0}'"),
        ] {
            let message = format!("a name has only printable ASCII characters, not {shown}");
            assert_eq!(name(odd), Err(Error { line: 3, message }), "{odd:?}");
        }
    }
}
