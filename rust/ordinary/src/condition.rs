//! Conditions in text on the outcome of an accepted case, such as `m0=1 /\ ~(e2=0 \/ m1=3)`: `m` is
//! final memory, `e` a load.

use crate::answer::{Answer, Refusal, GRAMMAR, NESTING, RANGE};
use crate::case::Case;
use crate::judge::{finals, judge, judge_case};
use crate::limits::{DEPTH, TEXT, VALUE};
use crate::read::read;

/// What conditions speak of.
#[derive(Clone, Debug, PartialEq, Eq)]
pub struct Outcome {
    /// By address, what it holds at the end.
    pub finals: Vec<u32>,
    /// By event, what it loaded; None where it is no load.
    pub loaded: Vec<Option<u32>>,
}

impl Outcome {
    pub fn new(case: &Case) -> Outcome {
        let events = case.events.iter();
        Outcome {
            finals: finals(case)[..case.addresses()].to_vec(),
            loaded: events.map(|e| e.is_load().then_some(e.value)).collect(),
        }
    }
}

#[derive(Clone, Debug, PartialEq, Eq)]
pub enum Condition {
    /// Joined by `\/`.
    Any(Vec<Condition>),
    /// Joined by `/\`.
    All(Vec<Condition>),
    Not(Box<Condition>),
    Memory {
        address: usize,
        value: u32,
    },
    Load {
        event: usize,
        value: u32,
    },
}

impl Condition {
    /// Whether it holds for an outcome that has its addresses and loads.
    pub fn holds(&self, outcome: &Outcome) -> bool {
        match self {
            Condition::Any(terms) => terms.iter().any(|term| term.holds(outcome)),
            Condition::All(factors) => factors.iter().all(|factor| factor.holds(outcome)),
            Condition::Not(factor) => !factor.holds(outcome),
            Condition::Memory { address, value } => outcome.finals[*address] == *value,
            Condition::Load { event, value } => outcome.loaded[*event] == Some(*value),
        }
    }
}

/// Why a text is refused.
#[derive(Clone, Copy, Debug, PartialEq, Eq)]
pub enum Why {
    TooLong,
    NoAddress,
    NoEvent,
    NoLoad,
    TooGreat,
    /// The text ends where it has to go on.
    Ends,
    /// A byte can't stand there.
    Misplaced,
    NeedlessZero,
    /// Only the first byte of `/\` or `\/` stands there.
    HalfSign,
    DeepNegation,
    DeepBracket,
}

impl Why {
    pub const ALL: [Why; 11] = [
        Why::TooLong,
        Why::NoAddress,
        Why::NoEvent,
        Why::NoLoad,
        Why::TooGreat,
        Why::Ends,
        Why::Misplaced,
        Why::NeedlessZero,
        Why::HalfSign,
        Why::DeepNegation,
        Why::DeepBracket,
    ];

    pub fn number(self) -> u32 {
        match self {
            Why::TooLong | Why::NoAddress | Why::NoEvent | Why::NoLoad | Why::TooGreat => RANGE,
            Why::Ends | Why::Misplaced | Why::NeedlessZero | Why::HalfSign => GRAMMAR,
            Why::DeepNegation | Why::DeepBracket => NESTING,
        }
    }
}

/// The leftmost fault of a text, and where it lies.
#[derive(Clone, Copy, Debug, PartialEq, Eq)]
pub struct Fault {
    pub why: Why,
    pub place: usize,
}

impl From<Fault> for Refusal {
    fn from(fault: Fault) -> Refusal {
        Refusal {
            number: fault.why.number(),
            place: fault.place,
        }
    }
}

/// Reads a condition on an outcome, which says what addresses and loads there are.
pub fn parse(text: &[u8], outcome: &Outcome) -> Result<Condition, Fault> {
    if text.len() > TEXT {
        let (why, place) = (Why::TooLong, TEXT);
        return Err(Fault { why, place });
    }
    let mut reader = Reader {
        text,
        place: 0,
        depth: 0,
        outcome,
    };
    let condition = reader.condition()?;
    match reader.next() {
        None => Ok(condition),
        Some(_) => Err(reader.stray()),
    }
}

struct Reader<'a> {
    text: &'a [u8],
    place: usize,
    /// How many `~` and brackets are open.
    depth: usize,
    outcome: &'a Outcome,
}

impl Reader<'_> {
    fn peek(&self) -> Option<u8> {
        self.text.get(self.place).copied()
    }

    /// The first byte of the next token.
    fn next(&mut self) -> Option<u8> {
        while self.peek() == Some(b' ') {
            self.place += 1;
        }
        self.peek()
    }

    fn fault(&self, why: Why) -> Fault {
        let place = self.place;
        Fault { why, place }
    }

    /// What stands here, a byte or the text's end, can't.
    fn stray(&self) -> Fault {
        self.fault(match self.peek() {
            Some(_) => Why::Misplaced,
            None => Why::Ends,
        })
    }

    fn condition(&mut self) -> Result<Condition, Fault> {
        let first = self.term()?;
        if !self.sign(*b"\\/")? {
            return Ok(first);
        }
        let mut terms = vec![first, self.term()?];
        while self.sign(*b"\\/")? {
            terms.push(self.term()?);
        }
        Ok(Condition::Any(terms))
    }

    fn term(&mut self) -> Result<Condition, Fault> {
        let first = self.factor()?;
        if !self.sign(*b"/\\")? {
            return Ok(first);
        }
        let mut factors = vec![first, self.factor()?];
        while self.sign(*b"/\\")? {
            factors.push(self.factor()?);
        }
        Ok(Condition::All(factors))
    }

    /// Whether a sign comes next, which is taken then.
    fn sign(&mut self, [first, second]: [u8; 2]) -> Result<bool, Fault> {
        if self.next() != Some(first) {
            return Ok(false);
        }
        self.place += 1;
        if self.peek() != Some(second) {
            return Err(self.fault(Why::HalfSign));
        }
        self.place += 1;
        Ok(true)
    }

    fn factor(&mut self) -> Result<Condition, Fault> {
        match self.next() {
            Some(b'~') => {
                self.enter(Why::DeepNegation)?;
                let factor = self.factor()?;
                self.depth -= 1;
                Ok(Condition::Not(Box::new(factor)))
            }
            Some(b'(') => {
                self.enter(Why::DeepBracket)?;
                let condition = self.condition()?;
                self.take(b')')?;
                self.depth -= 1;
                Ok(condition)
            }
            Some(b'm') => self.memory(),
            Some(b'e') => self.load(),
            _ => Err(self.stray()),
        }
    }

    /// Takes `~` or `(` and goes down.
    fn enter(&mut self, too_deep: Why) -> Result<(), Fault> {
        if self.depth == DEPTH {
            return Err(self.fault(too_deep));
        }
        self.depth += 1;
        self.place += 1;
        Ok(())
    }

    /// Takes the next token, which has to be this byte.
    fn take(&mut self, byte: u8) -> Result<(), Fault> {
        if self.next() != Some(byte) {
            return Err(self.stray());
        }
        self.place += 1;
        Ok(())
    }

    fn memory(&mut self) -> Result<Condition, Fault> {
        self.place += 1;
        let (place, address) = self.number()?;
        if address >= self.outcome.finals.len() as u64 {
            let why = Why::NoAddress;
            return Err(Fault { why, place });
        }
        let (address, value) = (address as usize, self.value()?);
        Ok(Condition::Memory { address, value })
    }

    fn load(&mut self) -> Result<Condition, Fault> {
        self.place += 1;
        let (place, event) = self.number()?;
        let event = event as usize;
        let why = match self.outcome.loaded.get(event) {
            None => Why::NoEvent,
            Some(None) => Why::NoLoad,
            Some(Some(_)) => {
                let value = self.value()?;
                return Ok(Condition::Load { event, value });
            }
        };
        Err(Fault { why, place })
    }

    /// `=` and a value.
    fn value(&mut self) -> Result<u32, Fault> {
        self.take(b'=')?;
        self.next();
        let (place, value) = self.number()?;
        let why = Why::TooGreat;
        match value <= VALUE.into() {
            true => Ok(value as u32),
            false => Err(Fault { why, place }),
        }
    }

    /// Where the number starts that stands here, and the number: one too great for 64 bits is the
    /// greatest of these, which is outside every range.
    fn number(&mut self) -> Result<(usize, u64), Fault> {
        let place = self.place;
        let mut value = 0u64;
        while let Some(digit @ b'0'..=b'9') = self.peek() {
            let digit = u64::from(digit - b'0');
            value = value.saturating_mul(10).saturating_add(digit);
            self.place += 1;
        }
        let why = Why::NeedlessZero;
        match self.text[place..self.place] {
            [] => Err(self.stray()),
            [b'0', _, ..] => Err(Fault { why, place }),
            _ => Ok((place, value)),
        }
    }
}

/// What a call answers: judging's answer or the text's fault, and whether the condition holds.
#[derive(Clone, Copy, Debug, Default, PartialEq, Eq)]
pub struct Asked {
    pub answer: Answer,
    pub holds: bool,
}

/// Asks a condition of the record at the front of the bytes, under a model.
pub fn ask(record: &[u8], model: u64, text: &[u8]) -> Asked {
    let outcome = || Outcome::new(&read(record).expect("an accepted record").case);
    asked(judge(record, model), outcome, text)
}

/// Asks a condition of a case under a model.
pub fn ask_case(case: &Case, model: u64, text: &[u8]) -> Asked {
    asked(judge_case(case, model), || Outcome::new(case), text)
}

/// What a call answers where judging answers `judged`; the outcome is asked for if that accepts.
pub fn asked(judged: Answer, outcome: impl FnOnce() -> Outcome, text: &[u8]) -> Asked {
    let mut asked = Asked {
        answer: judged,
        holds: false,
    };
    if judged.number == 0 {
        let outcome = outcome();
        match parse(text, &outcome) {
            Ok(condition) => asked.holds = condition.holds(&outcome),
            Err(fault) => asked.answer = Refusal::from(fault).into(),
        }
    }
    asked
}
