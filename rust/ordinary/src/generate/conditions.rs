//! Texts of conditions: by the grammar, a little off, and any at all.

use crate::condition::Outcome;
use crate::limits::{DEPTH, TEXT, VALUE};
use crate::random::Random;

/// The bytes that conditions are made of.
const ALPHABET: &[u8] = b" ()~/\\=me0123456789";

/// Tokens that fit every case, and ones that are no tokens.
const ODD: [&str; 18] = [
    "(", ")", "~", "=", "/\\", "\\/", "m0", "0", "1", "/", "\\", "m", "e", "00", "m00", "m9",
    "e99", "x",
];

/// Any text: most often a condition on the outcome, or near to one.
pub fn any_text(random: &mut Random, outcome: &Outcome) -> Vec<u8> {
    match random.below(16) {
        0..=5 => condition_text(random, outcome),
        6..=8 => {
            let text = condition_text(random, outcome);
            one_byte_off(random, text)
        }
        9 => {
            let mut text = condition_text(random, outcome);
            text.truncate(random.below(text.len()));
            text
        }
        10 | 11 => with_odd_number(random, outcome),
        12 => deep(random, outcome),
        13 => {
            let length = random.from_to(TEXT - 2, TEXT + 3);
            text_of_length(random, outcome, length)
        }
        14 => any_tokens(random),
        _ => {
            let length = random.below(12);
            any_bytes(random, length)
        }
    }
}

/// A condition on the outcome, some of whose equations hold.
pub fn condition_text(random: &mut Random, outcome: &Outcome) -> Vec<u8> {
    let tokens = condition(random, outcome);
    let mut text = spelled(random, &tokens);
    if text.len() > TEXT {
        text = equation_text(random, outcome);
    }
    text
}

fn equation_text(random: &mut Random, outcome: &Outcome) -> Vec<u8> {
    let tokens = equation(random, outcome);
    spelled(random, &tokens)
}

/// The tokens of a condition. A value is one too, behind its `=`.
fn condition(random: &mut Random, outcome: &Outcome) -> Vec<String> {
    drafted(random, outcome, |draft| draft.condition(0))
}

fn equation(random: &mut Random, outcome: &Outcome) -> Vec<String> {
    drafted(random, outcome, |draft| draft.equation())
}

/// The tokens that a draft of them comes to.
fn drafted(random: &mut Random, outcome: &Outcome, write: impl Fn(&mut Draft)) -> Vec<String> {
    let mut draft = Draft {
        random,
        outcome,
        tokens: Vec::new(),
    };
    write(&mut draft);
    draft.tokens
}

struct Draft<'a> {
    random: &'a mut Random,
    outcome: &'a Outcome,
    tokens: Vec<String>,
}

impl Draft<'_> {
    fn push(&mut self, token: impl ToString) {
        self.tokens.push(token.to_string());
    }

    fn condition(&mut self, depth: usize) {
        self.term(depth);
        while self.random.once_in(3) {
            self.push("\\/");
            self.term(depth);
        }
    }

    fn term(&mut self, depth: usize) {
        self.factor(depth);
        while self.random.once_in(3) {
            self.push("/\\");
            self.factor(depth);
        }
    }

    fn factor(&mut self, depth: usize) {
        match self.random.below(8) {
            0 | 1 if depth < DEPTH => {
                self.push("~");
                self.factor(depth + 1);
            }
            2 if depth < DEPTH => {
                self.push("(");
                self.condition(depth + 1);
                self.push(")");
            }
            _ => self.equation(),
        }
    }

    /// Of memory or of a load; half of the time it holds.
    fn equation(&mut self) {
        let loads = (0..).zip(&self.outcome.loaded);
        let loads: Vec<(usize, u32)> = loads.filter_map(|(e, v)| Some((e, (*v)?))).collect();
        let value = match self.random.once_in(2) || loads.is_empty() {
            true => {
                let address = self.random.below(self.outcome.finals.len());
                self.push(format!("m{address}"));
                self.outcome.finals[address]
            }
            false => {
                let (event, value) = self.random.pick(&loads);
                self.push(format!("e{event}"));
                value
            }
        };
        self.push("=");
        let other = match self.random.below(10) {
            0..=4 => value,
            5 => value ^ super::value_bit(self.random),
            6 => value.wrapping_add(1),
            7 => VALUE - self.random.below(2) as u32,
            _ => self.random.of_any_width(VALUE),
        };
        self.push(other);
    }
}

/// The tokens with spaces before, between and behind them.
fn spelled(random: &mut Random, tokens: &[String]) -> Vec<u8> {
    let most = random.pick(&[0, 0, 1, 1, 3]);
    let mut text = Vec::new();
    for token in tokens {
        text.resize(text.len() + random.below(most + 1), b' ');
        text.extend(token.as_bytes());
    }
    text.resize(text.len() + random.below(most + 1), b' ');
    text
}

fn any_byte(random: &mut Random) -> u8 {
    match random.once_in(4) {
        true => random.byte(),
        false => random.pick(ALPHABET),
    }
}

fn any_bytes(random: &mut Random, count: usize) -> Vec<u8> {
    (0..count).map(|_| any_byte(random)).collect()
}

/// A byte more, a byte less, or another one.
fn one_byte_off(random: &mut Random, mut text: Vec<u8>) -> Vec<u8> {
    let at = random.below(text.len());
    match random.below(3) {
        0 => text.insert(at, any_byte(random)),
        1 => text[at] = any_byte(random),
        _ => {
            text.remove(at);
        }
    }
    text
}

/// A condition with one number exchanged.
fn with_odd_number(random: &mut Random, outcome: &Outcome) -> Vec<u8> {
    let mut tokens = condition(random, outcome);
    let numbers = tokens.iter().enumerate();
    let numbers = numbers.filter(|(_, token)| token.ends_with(|c: char| c.is_ascii_digit()));
    let numbers: Vec<usize> = numbers.map(|(i, _)| i).collect();
    let token = &mut tokens[random.pick(&numbers)];
    let digits = token.trim_start_matches(['m', 'e']);
    let right = digits.parse().expect("a number");
    let (letter, bound) = match token.as_bytes()[0] {
        b'm' => ("m", outcome.finals.len() as u64),
        b'e' => ("e", outcome.loaded.len() as u64),
        _ => ("", u64::from(VALUE) + 1),
    };
    *token = letter.to_string() + &odd_number(random, right, bound);
    spelled(random, &tokens)
}

/// The digits of a number that often is out of range, which starts at the bound, or not as it may be
/// written; of greater ones that are the right one modulo 2 to the 32 or to the 64.
fn odd_number(random: &mut Random, right: u64, bound: u64) -> String {
    match random.below(10) {
        0 => format!("0{right}"),
        1 => format!("0{bound}"),
        2 => "0".repeat(random.from_to(1, 3)),
        3 => String::new(),
        4 => bound.to_string(),
        5 => (bound + random.below(3) as u64)
            .saturating_sub(2)
            .to_string(),
        6 => (u128::from(right) + (1 << 32)).to_string(),
        7 => (u128::from(right) + (1 << 64)).to_string(),
        8 => random.below(bound.min(100) as usize).to_string(),
        _ => {
            let digits = random.from_to(1, 24);
            (0..digits)
                .map(|_| random.pick(b"0123456789") as char)
                .collect()
        }
    }
}

/// Nested about as deep as may be, in any mixture of `~` and brackets, beside another condition.
fn deep(random: &mut Random, outcome: &Outcome) -> Vec<u8> {
    let mut tokens = condition(random, outcome);
    tokens.push(random.pick(&["/\\", "\\/"]).to_string());
    let depth = random.from_to(DEPTH - 1, DEPTH + 2);
    let mut open = 0;
    for _ in 0..depth {
        let sign = random.pick(&["~", "("]);
        open += usize::from(sign == "(");
        tokens.push(sign.to_string());
    }
    tokens.extend(equation(random, outcome));
    tokens.extend(vec![")".to_string(); open]);
    spelled(random, &tokens)
}

/// A condition of that many bytes, of which some at its front or its end are spaces.
pub fn text_of_length(random: &mut Random, outcome: &Outcome, length: usize) -> Vec<u8> {
    let mut text = equation_text(random, outcome);
    let signs: &[&str] = random.pick(&[&["/\\"], &["\\/"], &["/\\", "\\/"]]);
    loop {
        let sign = random.pick(signs).as_bytes();
        let more = [sign, &equation_text(random, outcome)].concat();
        if text.len() + more.len() > length {
            break;
        }
        text.extend(more);
    }
    let spaces = vec![b' '; length - text.len()];
    match random.once_in(2) {
        true => [text, spaces].concat(),
        false => [spaces, text].concat(),
    }
}

fn any_tokens(random: &mut Random) -> Vec<u8> {
    let count = random.from_to(1, 8);
    let tokens: Vec<String> = (0..count).map(|_| random.pick(&ODD).to_string()).collect();
    spelled(random, &tokens)
}
