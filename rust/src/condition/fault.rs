//! What is wrong with a condition's text, in words, and where.

use super::{NESTING, RANGE};
use crate::{CONDITION_BYTES, CONDITION_DEPTH};
use std::fmt;
use std::ops::Range;

/// The most bytes of a text that are shown.
const SHOWN: usize = 64;
/// What stands in front of a text that is shown.
const MARGIN: &str = "    ";
/// What stands for the rest of a text of which a part is shown.
const MORE: &str = "..";

/// The leftmost fault of a condition's text. Its words are followed by the text, or the part of it
/// around the fault, and a `^` under the place. A byte that is not printable ASCII is shown as `?`.
#[derive(Clone, Debug, PartialEq, Eq)]
pub struct TextFault {
    /// 3, 21 or 22.
    pub number: u32,
    /// A bad number's first digit, the `~` or `(` that is too deep, or else the first byte that
    /// can't stand there or the text's end.
    pub place: usize,
    /// The text, or as much of it as words and sight need.
    text: Vec<u8>,
}

impl TextFault {
    /// Of a fault that the library has found in a text.
    pub(super) fn new(number: u32, place: usize, text: &[u8]) -> TextFault {
        let kept = text.len().min(CONDITION_BYTES + SHOWN);
        TextFault {
            number,
            place,
            text: text[..kept].to_vec(),
        }
    }

    /// What is wrong, in words.
    pub fn words(&self) -> String {
        match self.number {
            NESTING => format!("~ and brackets are nested more than {CONDITION_DEPTH} deep"),
            RANGE => self.range_words(),
            _ => self.grammar_words().to_string() + &self.odd_byte(),
        }
    }

    /// What stands before the place; in a text that is not too long, all of it is as the grammar has
    /// it.
    fn before(&self) -> &[u8] {
        &self.text[..self.place]
    }

    fn range_words(&self) -> String {
        match self.before() {
            _ if self.text.len() > CONDITION_BYTES => {
                format!("a text has at most {CONDITION_BYTES} bytes")
            }
            [.., b'm'] => "there is no such address".to_string(),
            [.., b'e'] => "there is no such load".to_string(),
            _ => format!("a value is at most {}", u32::MAX),
        }
    }

    /// What has to stand at the place.
    fn grammar_words(&self) -> &'static str {
        let before = self.before();
        let tokens = before.trim_ascii_end();
        let number = matches!(before, [.., b'm' | b'e']) || tokens.ends_with(b"=");
        if number && matches!(self.text[self.place..], [b'0', b'0'..=b'9', ..]) {
            return "a number may not begin with a needless zero";
        }
        match before {
            [.., b'm'] => return "an address has to follow m at once",
            [.., b'e'] => return "the number of a load has to follow e at once",
            [.., b'/'] if !before.ends_with(b"\\/") => return "\\ has to follow / at once",
            [.., b'\\'] if !before.ends_with(b"/\\") => return "/ has to follow \\ at once",
            _ => {}
        }
        match tokens {
            [.., b'='] => "a value has to follow =",
            [.., b'0'..=b'9'] if ends_in_a_name(tokens) => "= has to follow",
            [.., b'0'..=b'9' | b')'] => self.behind_a_factor(),
            _ => "an equation, ~ or ( has to stand here",
        }
    }

    /// What has to stand at the place where a factor has ended before it.
    fn behind_a_factor(&self) -> &'static str {
        let count = |byte| self.before().iter().filter(|&&b| b == byte).count();
        let open = count(b'(') > count(b')');
        match self.text.get(self.place) {
            None => "a bracket is not closed",
            Some(b')') => "no bracket is open here",
            _ if open => "/\\, \\/ or ) has to stand here",
            _ => "/\\ or \\/ has to stand here",
        }
    }

    /// The byte at the place where it can't be shown.
    fn odd_byte(&self) -> String {
        match self.text.get(self.place) {
            Some(byte) if !printable(byte) => format!(", not the byte {byte:#04x}"),
            _ => String::new(),
        }
    }

    /// The part of the text that is shown.
    fn part(&self) -> Range<usize> {
        let length = self.text.len();
        if length <= SHOWN {
            return 0..length;
        }
        let start = self.place.saturating_sub(SHOWN / 2).min(length - SHOWN);
        start..start + SHOWN
    }
}

/// Whether the bytes end in `m0` or `e2`, and not in a value.
fn ends_in_a_name(tokens: &[u8]) -> bool {
    let digits = tokens.iter().rev().take_while(|b| b.is_ascii_digit());
    matches!(tokens[..tokens.len() - digits.count()], [.., b'm' | b'e'])
}

fn printable(byte: &u8) -> bool {
    matches!(byte, b' '..=b'~')
}

impl fmt::Display for TextFault {
    fn fmt(&self, f: &mut fmt::Formatter) -> fmt::Result {
        let (number, place) = (self.number, self.place);
        writeln!(f, "refused with {number}: {} (byte {place})", self.words())?;
        let part = self.part();
        let more = |cut| if cut { MORE } else { "" };
        let (front, back) = (more(part.start > 0), more(part.end < self.text.len()));
        let column = front.len() + place - part.start;
        let shown = |byte: &u8| {
            if printable(byte) {
                char::from(*byte)
            } else {
                '?'
            }
        };
        let text: String = self.text[part].iter().map(shown).collect();
        writeln!(f, "{MARGIN}{front}{text}{back}")?;
        write!(f, "{MARGIN}{:column$}^", "")
    }
}

impl std::error::Error for TextFault {}
