//! Bytes to rows.

use super::{has, Case, Rows, Set, LOAD, STORE};
use crate::answer::{Refusal, ENDS, MISPLACED, UNPRINTABLE};
use crate::case::{Class, Kind};
use crate::limits::{ADDRESSES, DEPENDENCIES, EVENTS, FIRST, NAME, PRINTABLE, SECOND};
use crate::limits::{THREADS, VALUE};
use crate::numbers::{refuse, Reader};

const ADDRESS: usize = Class::Address as usize;

/// Reads the record at the front of the bytes into a new case.
pub fn read_into(case: &mut Case, bytes: &[u8]) -> Result<(), Refusal> {
    let mut reader = Reader::new(bytes);
    let edition = reader.number(FIRST, SECOND)?;
    case.threads = reader.number(1, THREADS as u32)? as usize;
    case.addresses = reader.number(1, ADDRESSES as u32)? as usize;
    for value in &mut case.initial[..case.addresses] {
        *value = reader.number(0, VALUE)?;
    }
    reader.events(case, Kind::count(edition))?;
    if edition == SECOND {
        reader.dependencies(case)?;
    }
    reader.write_orders(case)?;
    for thread in 0..case.threads {
        reader.order(&mut case.after[thread], case.count)?;
    }
    reader.name()?;
    case.length = reader.place;
    Ok(())
}

impl Reader<'_> {
    fn events(&mut self, case: &mut Case, kinds: usize) -> Result<(), Refusal> {
        case.count = self.number(0, EVENTS as u32)? as usize;
        for event in &mut case.events[..case.count] {
            event.kind = self.below(kinds)? as u8;
            event.thread = self.below(case.threads)? as u8;
            if matches!(event.kind, LOAD | STORE) {
                event.address = self.below(case.addresses)? as u8;
                event.value = self.number(0, VALUE)?;
            }
            if event.kind == STORE {
                case.stores[event.address as usize] += 1;
            }
        }
        Ok(())
    }

    fn dependencies(&mut self, case: &mut Case) -> Result<(), Refusal> {
        let count = self.number(0, DEPENDENCIES as u32)?;
        let mut least = 0;
        for _ in 0..count {
            let place = self.place;
            let class = self.below(Class::ALL.len())?;
            let from = self.below(case.count)?;
            let to = self.below(case.count)?;
            let (load, other) = (&case.events[from], &case.events[to]);
            let rank = (from * EVENTS + to) * Class::ALL.len() + class;
            let good = load.kind == LOAD
                && from < to
                && load.thread == other.thread
                && (other.kind == STORE || class == ADDRESS && other.kind == LOAD)
                && rank >= least;
            if !good {
                return refuse(MISPLACED, place);
            }
            least = rank + 1;
            case.dependents[from] |= 1 << to;
        }
        Ok(())
    }

    fn write_orders(&mut self, case: &mut Case) -> Result<(), Refusal> {
        let mut listed: Set = 0;
        for address in 0..case.addresses {
            for i in 0..case.stores[address] {
                let place = self.place;
                let e = self.below(case.count)?;
                let event = &case.events[e];
                let stores = event.kind == STORE && event.address as usize == address;
                if !stores || has(listed, e) {
                    return refuse(MISPLACED, place);
                }
                listed |= 1 << e;
                case.written[address][i] = e as u8;
            }
        }
        Ok(())
    }

    fn order(&mut self, after: &mut Rows, count: usize) -> Result<(), Refusal> {
        let pairs = self.number(0, (count * count) as u32)? as usize;
        let start = self.place;
        let least = self.quick_rows(after, count, pairs);
        let taken = (self.place - start) / 2;
        self.pairs(after, count, pairs - taken, least)
    }

    /// Takes rows as long as they are good ones of one-byte numbers, and gives the least pair that
    /// may come next. The place is then behind the last row taken.
    fn quick_rows(&mut self, after: &mut Rows, count: usize, pairs: usize) -> usize {
        let Some(mut rest) = self.bytes[self.place..].get(..2 * pairs) else {
            return 0;
        };
        let mut least = 0;
        while let [a, ..] = *rest {
            let a = usize::from(a);
            let row = Row::at_front(rest);
            let last = usize::from(row.last);
            if a >= count || last >= count || a * EVENTS < least {
                break;
            }
            after[a] = row.set;
            least = a * EVENTS + last + 1;
            rest = &rest[row.size..];
            self.place += row.size;
        }
        least
    }

    /// Takes pairs one by one, with the exact refusal.
    fn pairs(
        &mut self,
        after: &mut Rows,
        count: usize,
        pairs: usize,
        mut least: usize,
    ) -> Result<(), Refusal> {
        for _ in 0..pairs {
            let place = self.place;
            let a = self.below(count)?;
            let b = self.below(count)?;
            let pair = a * EVENTS + b;
            if pair < least {
                return refuse(MISPLACED, place);
            }
            least = pair + 1;
            after[a] |= 1 << b;
        }
        Ok(())
    }

    fn name(&mut self) -> Result<(), Refusal> {
        let length = self.number(0, NAME as u32)? as usize;
        let Some(name) = self.bytes[self.place..].get(..length) else {
            return refuse(ENDS, self.place);
        };
        if let Some(at) = name.iter().position(|byte| !PRINTABLE.contains(byte)) {
            return refuse(UNPRINTABLE, self.place + at);
        }
        self.place += length;
        Ok(())
    }
}

/// Pairs of one byte each with the same first number, whose second numbers rise.
struct Row {
    /// The second numbers, as long as `last` is below the most events.
    set: Set,
    /// The greatest of them.
    last: u8,
    /// How many bytes they take.
    size: usize,
}

impl Row {
    /// As many of these pairs as make a row. There is one at least.
    #[inline(always)]
    fn at_front(pairs: &[u8]) -> Row {
        let (a, mut last) = (pairs[0], pairs[1]);
        let mut set = bit(last);
        let mut size = 2;
        for pair in pairs[2..].chunks_exact(2) {
            if pair[0] != a || pair[1] <= last {
                break;
            }
            last = pair[1];
            set |= bit(last);
            size += 2;
        }
        Row { set, last, size }
    }
}

/// The set of one event; any set for a number that is none.
#[inline(always)]
fn bit(e: u8) -> Set {
    Set::wrapping_shl(1, e.into())
}
