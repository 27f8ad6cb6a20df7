//! Bytes to a case.

use crate::answer::{Answer, Refusal, ENDS, FORM, MISPLACED, RANGE, UNPRINTABLE};
use crate::case::{unprintable, Case, Class, Dependency, Event, Kind, Order, Unfit};
use crate::limits::{ADDRESSES, DEPENDENCIES, EVENTS, FIRST, GROUPS, NAME, SECOND, THREADS, VALUE};

/// A case, and how many bytes its record takes.
#[derive(Clone, Debug, PartialEq, Eq)]
pub struct Reading {
    pub case: Case,
    pub length: usize,
}

/// Reads the record at the front of the bytes.
pub fn read(bytes: &[u8]) -> Result<Reading, Refusal> {
    let mut reader = Reader::new(bytes);
    let case = reader.case()?;
    let length = reader.place;
    Ok(Reading { case, length })
}

/// Why a dependency is refused with 4, where that ends the reading.
pub fn unfit_dependency(bytes: &[u8]) -> Option<Unfit> {
    let mut reader = Reader::new(bytes);
    reader.case().err()?;
    reader.unfit
}

/// What reading the bytes answers.
pub fn answer(bytes: &[u8]) -> Answer {
    match read(bytes) {
        Ok(reading) => Answer::done(reading.length),
        Err(refusal) => refusal.into(),
    }
}

/// The name as the record's own bytes; empty when the record is refused.
pub fn name(bytes: &[u8]) -> &[u8] {
    let (at, length) = name_part(bytes);
    &bytes[at..at + length]
}

/// Where the name starts and how long it is; 0 and 0 when the record is refused.
pub fn name_part(bytes: &[u8]) -> (usize, usize) {
    match read(bytes) {
        Ok(Reading { case, length }) => (length - case.name.len(), case.name.len()),
        Err(_) => (0, 0),
    }
}

struct Reader<'a> {
    bytes: &'a [u8],
    place: usize,
    /// Why a dependency was refused with 4.
    unfit: Option<Unfit>,
}

impl Reader<'_> {
    fn new(bytes: &[u8]) -> Reader<'_> {
        Reader {
            bytes,
            place: 0,
            unfit: None,
        }
    }

    /// A number from `least` to `most`.
    fn number(&mut self, least: u32, most: u32) -> Result<u32, Refusal> {
        let start = self.place;
        let refuse = |number| Refusal {
            number,
            place: start,
        };
        let mut value = 0u64;
        for group in 0..GROUPS {
            let &byte = self.bytes.get(self.place).ok_or(refuse(ENDS))?;
            self.place += 1;
            value += u64::from(byte % 128) << (7 * group);
            if byte < 128 {
                if group > 0 && byte == 0 {
                    return Err(refuse(FORM));
                }
                if value < u64::from(least) || value > u64::from(most) {
                    return Err(refuse(RANGE));
                }
                return Ok(value as u32);
            }
        }
        Err(refuse(FORM))
    }

    /// A count or label from `least` to `most`.
    fn count(&mut self, least: usize, most: usize) -> Result<usize, Refusal> {
        Ok(self.number(least as u32, most as u32)? as usize)
    }

    /// A label below `count`; below 0 there is none.
    fn below(&mut self, count: usize) -> Result<usize, Refusal> {
        let place = self.place;
        match self.number(0, u32::MAX)? as usize {
            label if label < count => Ok(label),
            _ => Err(Refusal {
                number: RANGE,
                place,
            }),
        }
    }

    fn case(&mut self) -> Result<Case, Refusal> {
        let edition = self.number(FIRST, SECOND)?;
        let threads = self.count(1, THREADS)?;
        let addresses = self.count(1, ADDRESSES)?;
        let mut case = Case::empty(threads, addresses);
        case.edition = edition;
        for value in &mut case.initial {
            *value = self.number(0, VALUE)?;
        }
        for _ in 0..self.count(0, EVENTS)? {
            let event = self.event(&case)?;
            case.events.push(event);
        }
        if edition == SECOND {
            case.dependencies = self.dependencies(&case)?;
        }
        for address in 0..addresses {
            case.write_orders[address] = self.write_order(&case, address)?;
        }
        for thread in 0..threads {
            case.orders[thread] = self.order(case.events.len())?;
        }
        case.name = self.name()?;
        Ok(case)
    }

    fn event(&mut self, case: &Case) -> Result<Event, Refusal> {
        let kind = Kind::ALL[self.below(Kind::count(case.edition))?];
        let mut event = Event {
            kind,
            ..Event::sync(self.below(case.threads())?)
        };
        if !event.is_barrier() {
            event.address = self.below(case.addresses())?;
            event.value = self.number(0, VALUE)?;
        }
        Ok(event)
    }

    fn dependencies(&mut self, case: &Case) -> Result<Vec<Dependency>, Refusal> {
        let mut listed = Vec::new();
        for _ in 0..self.count(0, DEPENDENCIES)? {
            let place = self.place;
            let class = Class::ALL[self.below(Class::ALL.len())?];
            let from = self.below(case.events.len())?;
            let to = self.below(case.events.len())?;
            let dependency = Dependency { from, to, class };
            self.unfit = case.unfit(dependency, listed.last().copied());
            if self.unfit.is_some() {
                return Err(Refusal {
                    number: MISPLACED,
                    place,
                });
            }
            listed.push(dependency);
        }
        Ok(listed)
    }

    fn write_order(&mut self, case: &Case, address: usize) -> Result<Vec<usize>, Refusal> {
        let mut listed = Vec::new();
        for _ in case.stores_to(address) {
            let place = self.place;
            let e = self.below(case.events.len())?;
            if !case.events[e].stores(address) || listed.contains(&e) {
                return Err(Refusal {
                    number: MISPLACED,
                    place,
                });
            }
            listed.push(e);
        }
        Ok(listed)
    }

    fn order(&mut self, events: usize) -> Result<Order, Refusal> {
        let mut order = Order::new();
        let mut last = None;
        for _ in 0..self.count(0, events * events)? {
            let place = self.place;
            let pair = (self.below(events)?, self.below(events)?);
            if last.is_some_and(|last| pair <= last) {
                return Err(Refusal {
                    number: MISPLACED,
                    place,
                });
            }
            order.insert(pair.0, pair.1);
            last = Some(pair);
        }
        Ok(order)
    }

    fn name(&mut self) -> Result<Vec<u8>, Refusal> {
        let length = self.count(0, NAME)?;
        let start = self.place;
        let bytes = self.bytes.get(start..start + length).ok_or(Refusal {
            number: ENDS,
            place: start,
        })?;
        if let Some(at) = unprintable(bytes) {
            return Err(Refusal {
                number: UNPRINTABLE,
                place: start + at,
            });
        }
        self.place += length;
        Ok(bytes.to_vec())
    }
}
