//! What the wrapper says of answers and refusals, in words.

use crate::{DEKKER, SMALL};
use litmus::{condition, Case, Model};
use ordinary::condition::{parse, Fault, Outcome, Why};
use ordinary::generate::any_text;
use ordinary::random::Random;
use ordinary::read;

/// What a text is refused with, of a record under PPCw.
fn refused(record: &[u8], text: &[u8]) -> String {
    condition(record, Model::PpcW, text)
        .unwrap_err()
        .to_string()
}

const EQUATION: &str = "an equation, ~ or ( has to stand here";
const ADDRESS: &str = "an address has to follow m at once";
const ZERO: &str = "a number may not begin with a needless zero";
const SIGN: &str = r"/\ or \/ has to stand here";
const DEEP: &str = "~ and brackets are nested more than 16 deep";

/// Texts on Dekker, their numbers and places, and what is wrong with them.
const WORDS: [(&str, u32, usize, &str); 32] = [
    ("", 21, 0, EQUATION),
    ("  ", 21, 2, EQUATION),
    ("x", 21, 0, EQUATION),
    (r"m0=1 /\", 21, 7, EQUATION),
    (r"m0=1 /\ \/", 21, 8, EQUATION),
    (r"m0=1 \/ )", 21, 8, EQUATION),
    ("~ ", 21, 2, EQUATION),
    ("(", 21, 1, EQUATION),
    ("m", 21, 1, ADDRESS),
    ("m 0=1", 21, 1, ADDRESS),
    ("e=1", 21, 1, "the number of a load has to follow e at once"),
    ("m0 1", 21, 3, "= has to follow"),
    ("e2", 21, 2, "= has to follow"),
    ("m0=", 21, 3, "a value has to follow ="),
    ("m0= -1", 21, 4, "a value has to follow ="),
    ("m00=1", 21, 1, ZERO),
    ("m0= 01", 21, 4, ZERO),
    ("m0=00", 21, 3, ZERO),
    (r"m0=1 /m1=1", 21, 6, r"\ has to follow / at once"),
    (r"m0=1 \", 21, 6, r"/ has to follow \ at once"),
    ("m0=1 m1=1", 21, 5, SIGN),
    ("m0=12x", 21, 5, SIGN),
    ("m0=1 00", 21, 5, SIGN),
    ("(m0=1 m1=1)", 21, 6, r"/\, \/ or ) has to stand here"),
    ("m0=1)", 21, 4, "no bracket is open here"),
    ("(m0=1))", 21, 6, "no bracket is open here"),
    ("((m0=1)", 21, 7, "a bracket is not closed"),
    ("m2=1", 3, 1, "there is no such address"),
    ("e3=1", 3, 1, "there is no such load"),
    ("e9=1", 3, 1, "there is no such load"),
    ("m0= 4294967296", 3, 4, "a value is at most 4294967295"),
    ("(~(~(~(~(~(~(~(~(", 22, 16, DEEP),
];

/// What is wrong, and the place under the text.
#[test]
fn words_of_texts() {
    for (text, number, place, words) in WORDS {
        let caret = " ".repeat(place) + "^";
        assert_eq!(
            refused(DEKKER, text.as_bytes()),
            format!("the text is refused with {number}: {words} (byte {place})\n    {text}\n    {caret}")
        );
    }
}

/// What the words for such a reason begin with; None where they differ by what has to stand there.
fn words_for(why: Why) -> Option<&'static [&'static str]> {
    match why {
        Why::TooLong => Some(&["a text has at most 512 bytes"]),
        Why::NoAddress => Some(&["there is no such address"]),
        Why::NoEvent | Why::NoLoad => Some(&["there is no such load"]),
        Why::TooGreat => Some(&["a value is at most 4294967295"]),
        Why::NeedlessZero => Some(&[ZERO]),
        Why::HalfSign => Some(&[r"\ has to follow / at once", r"/ has to follow \ at once"]),
        Why::DeepNegation | Why::DeepBracket => Some(&[DEEP]),
        Why::Ends | Why::Misplaced => None,
    }
}

/// What stands above the caret: a byte of the text, or nothing behind its end.
fn shown_at_the_caret(lines: &[&str]) -> Option<char> {
    let column = lines[2].find('^').expect("a caret");
    assert_eq!(lines[2].trim_start(), "^");
    lines[1].chars().nth(column)
}

/// Whatever the text is, its words say why it is refused, and the caret stands under the place.
#[test]
fn words_of_any_texts() {
    let mut random = Random::new(134);
    let outcome = Outcome::new(&read::read(DEKKER).expect("a record").case);
    for _ in 0..50_000 {
        let text = any_text(&mut random, &outcome);
        let Err(Fault { why, place }) = parse(&text, &outcome) else {
            continue;
        };
        let said = refused(DEKKER, &text);
        let front = format!("the text is refused with {}: ", why.number());
        let words = said.strip_prefix(&front).expect("its number");
        let of = |why| words_for(why).is_some_and(|all| all.iter().any(|w| words.starts_with(w)));
        for other in Why::ALL {
            let same = words_for(why).is_some() && words_for(other) == words_for(why);
            assert_eq!(of(other), same, "{why:?}, {other:?}: {said}");
        }
        let lines: Vec<&str> = said.split('\n').collect();
        assert!(lines.len() == 3 && lines[1].len() <= 72, "{said}");
        let shown = |&byte: &u8| match byte {
            b' '..=b'~' => char::from(byte),
            _ => '?',
        };
        let expected = text.get(place).map(shown);
        assert_eq!(shown_at_the_caret(&lines), expected, "{said}");
        assert!(said
            .bytes()
            .all(|b| b == b'\n' || (b' '..=b'~').contains(&b)));
    }
}

/// Bytes that can't be shown take a column each.
#[test]
fn words_of_odd_bytes() {
    for (text, shown) in [
        (
            &b"m0=1\n"[..],
            r"/\ or \/ has to stand here, not the byte 0x0a (byte 4)
    m0=1?
        ^",
        ),
        (
            "m0=1 ∧ m1=1".as_bytes(),
            r"/\ or \/ has to stand here, not the byte 0xe2 (byte 5)
    m0=1 ??? m1=1
         ^",
        ),
        (
            b"m0=x\x1b[1m\xff",
            r"a value has to follow = (byte 3)
    m0=x?[1m?
       ^",
        ),
    ] {
        let shown = format!("the text is refused with 21: {shown}");
        assert_eq!(refused(DEKKER, text), shown);
    }
}

/// Of a long text the part around the fault is shown.
#[test]
fn words_of_long_texts() {
    let equations = r"m0=1 /\ ".repeat(64);
    for (text, shown) in [
        (
            format!("x{equations}"),
            r"3: a text has at most 512 bytes (byte 512)
    ..m0=1 /\ m0=1 /\ m0=1 /\ m0=1 /\ m0=1 /\ m0=1 /\ m0=1 /\ m0=1 /\ 
                                                                     ^",
        ),
        (
            equations.clone(),
            r"21: an equation, ~ or ( has to stand here (byte 512)
    ..m0=1 /\ m0=1 /\ m0=1 /\ m0=1 /\ m0=1 /\ m0=1 /\ m0=1 /\ m0=1 /\ 
                                                                      ^",
        ),
        (
            format!("m0=1 ){}", &equations[..400]),
            r"21: no bracket is open here (byte 5)
    m0=1 )m0=1 /\ m0=1 /\ m0=1 /\ m0=1 /\ m0=1 /\ m0=1 /\ m0=1 /\ m0..
         ^",
        ),
        (
            format!("{}){}", &equations[..204], &equations[..200]),
            r"21: no bracket is open here (byte 204)
    .. /\ m0=1 /\ m0=1 /\ m0=1 /\ m0=1)m0=1 /\ m0=1 /\ m0=1 /\ m0=1 /\..
                                      ^",
        ),
    ] {
        assert_eq!(
            refused(DEKKER, text.as_bytes()),
            format!("the text is refused with {shown}")
        );
    }
}

#[test]
fn words_of_answers() {
    let say = |record, model, text: &str| match condition(record, model, text.as_bytes()) {
        Ok(asked) => asked.to_string(),
        Err(refusal) => refusal.to_string(),
    };
    assert_eq!(say(DEKKER, Model::PpcW, r"e2=0 /\ e5=0"), "holds");
    assert_eq!(say(DEKKER, Model::PpcW, r"e2=1 \/ e5=1"), "does not hold");
    let broken = say(DEKKER, Model::PpcS, "e2=");
    assert!(broken.starts_with("not possible: rule 16: "), "{broken}");
    assert_eq!(
        say(&SMALL[..5], Model::PpcS, "e2="),
        "the case is refused with 1: the bytes end inside a number or the name (byte 5)"
    );
    let case = Case {
        threads: 9,
        ..Case::empty()
    };
    assert_eq!(
        case.condition(Model::PpcS, b"").unwrap_err().to_string(),
        "the case is refused with 3: a number is outside its range"
    );
}
