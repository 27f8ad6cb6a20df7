//! Records of edition 1 to be judged under PPCs: accepted ones, and such as break each of the rules.

use ordinary::judge::{PPCS, RULES};
use ordinary::limits::FIRST;
use ordinary::random::Random;
use ordinary::tally::Tally;
use ordinary::{generate, rows, write, Case};
use std::fmt;

/// What PPCs says of records.
#[derive(Clone, Copy, PartialEq, Eq)]
pub enum Kind {
    Accepted,
    Refused,
}

impl fmt::Display for Kind {
    fn fmt(&self, f: &mut fmt::Formatter) -> fmt::Result {
        f.write_str(match self {
            Kind::Accepted => "accepts",
            Kind::Refused => "refuses",
        })
    }
}

/// Random records with so many events each, full orders, and a barrier for six events on average. The
/// threads have one order, or each has its own; a refused one has one change.
pub struct Inputs {
    kind: Kind,
    events: usize,
    own_orders: bool,
    random: Random,
    /// Of all that were made: the cases they were made from, their barriers, and how many pairs of
    /// events the first two threads see in different orders.
    cases: usize,
    barriers: usize,
    apart: usize,
    verdicts: Tally,
}

/// The heading under which verdicts are counted.
const VERDICTS: &str = "verdicts";

impl Inputs {
    pub fn new(kind: Kind, events: usize, own_orders: bool) -> Inputs {
        Inputs {
            kind,
            events,
            own_orders,
            random: Random::new(44),
            cases: 0,
            barriers: 0,
            apart: 0,
            verdicts: Tally::default(),
        }
    }

    /// The next records, so many at most and with so many bytes at most, but one at least.
    pub fn batch(&mut self, records: usize, bytes: usize) -> Vec<Vec<u8>> {
        let mut batch = vec![self.next()];
        let fit = bytes / batch[0].len();
        while batch.len() < records.min(fit) {
            batch.push(self.next());
        }
        batch
    }

    fn next(&mut self) -> Vec<u8> {
        match self.kind {
            Kind::Accepted => {
                let record = write::record(&self.accepted());
                assert_eq!(rows::judge(&record, PPCS).number, 0);
                record
            }
            Kind::Refused => self.refused(),
        }
    }

    fn accepted(&mut self) -> Case {
        let case = match self.own_orders {
            true => self.with_own_orders(),
            false => generate::full(&mut self.random, FIRST, self.events),
        };
        let events = case.events.iter();
        self.cases += 1;
        self.barriers += events.filter(|event| event.is_barrier()).count();
        let [first, second] = [0, 1].map(|p| &case.orders[p]);
        let pairs = first.pairs(self.events).into_iter();
        self.apart += pairs.filter(|&(a, b)| !second.has(a, b)).count();
        case
    }

    /// No two threads have the same order.
    fn with_own_orders(&mut self) -> Case {
        loop {
            let case = generate::own_orders(&mut self.random, FIRST, self.events);
            let mut orders = case.orders.iter().enumerate();
            if orders.all(|(p, order)| !case.orders[..p].contains(order)) {
                return case;
            }
        }
    }

    /// The rules take turns.
    fn refused(&mut self) -> Vec<u8> {
        loop {
            let rule = self.rule();
            let case = self.accepted();
            let case = generate::breaking(&mut self.random, &case, rule);
            let record = write::record(&case);
            if rows::judge(&record, PPCS).number == rule {
                self.verdicts.add(VERDICTS, rule);
                return record;
            }
        }
    }

    /// A rule that came up least often.
    fn rule(&self) -> u32 {
        let times = |rule: &u32| self.verdicts.times(VERDICTS, *rule);
        RULES.min_by_key(times).expect("some rules")
    }

    /// Lines on the barriers they have, on how far orders lie apart, and on the rules they break, each
    /// of which has to come up.
    pub fn contents(&self) -> String {
        let [barriers, apart] =
            [self.barriers, self.apart].map(|count| count as f64 / self.cases as f64);
        let pairs = self.events * (self.events - 1) / 2;
        let apart = format!("two threads see {apart:.1} of {pairs} pairs apart");
        let contents = format!("{self}: a record has {barriers:.1} barriers; {apart}\n");
        if self.kind == Kind::Accepted {
            return contents;
        }
        self.verdicts.assert_each(VERDICTS, RULES, 100);
        format!("{contents}    {}", self.verdicts)
    }
}

impl fmt::Display for Inputs {
    fn fmt(&self, f: &mut fmt::Formatter) -> fmt::Result {
        let orders = if self.own_orders {
            "own orders"
        } else {
            "one order"
        };
        write!(f, "{} events, {orders}", self.events)
    }
}
