//! Worked conditions.

use ordinary::condition::{ask, ask_case, parse, Condition, Fault, Outcome, Why};
use ordinary::limits::{DEPTH, TEXT};
use ordinary::read::read;
use ordinary::Answer;

/// Accepted by PPCw alone: loads are events 2 and 5, and both addresses hold 1 at the end.
const DEKKER: &[u8] = include_bytes!("../../../examples/dekker.litmus");

/// Two addresses; of three events the first is no load.
fn outcome() -> Outcome {
    Outcome {
        finals: vec![1, u32::MAX],
        loaded: vec![None, Some(7), Some(0)],
    }
}

/// The truth of a text, or its number and place.
fn told(text: impl AsRef<[u8]>) -> Result<bool, (u32, usize)> {
    let outcome = outcome();
    match parse(text.as_ref(), &outcome) {
        Ok(condition) => Ok(condition.holds(&outcome)),
        Err(Fault { why, place }) => Err((why.number(), place)),
    }
}

#[test]
fn equations() {
    for (text, truth) in [
        ("m0=1", true),
        ("m0=2", false),
        ("m1=4294967295", true),
        ("m1=4294967294", false),
        ("e1=7", true),
        ("e2=0", true),
        ("e2=7", false),
        ("  m0  =  1  ", true),
    ] {
        assert_eq!(told(text), Ok(truth), "{text}");
    }
}

/// `~` takes a factor, `/\` binds tighter than `\/`, and brackets go before both.
#[test]
fn signs() {
    for (text, truth) in [
        ("~m0=2", true),
        ("~~m0=2", false),
        ("m0=1/\\e2=7", false),
        ("m0=1\\/e2=7", true),
        ("m0=1 \\/ m0=1 /\\ m0=2", true),
        ("m0=2 /\\ m0=1 \\/ m0=1", true),
        ("(m0=1 \\/ m0=1) /\\ m0=2", false),
        ("~m0=1 /\\ m0=2", false),
        ("~m0=2 \\/ m0=1", true),
        ("~m0=1 \\/ m0=1", true),
        ("~(m0=1 \\/ m0=1)", false),
        ("~(m0=1 /\\ m0=2)", true),
        ("m0=2 \\/ m0=3 \\/ m0=1", true),
        ("m0=1 /\\ e1=7 /\\ e2=1", false),
        ("m0=1 /\\ ~(e2=1 \\/ m1=3)", true),
    ] {
        assert_eq!(told(text), Ok(truth), "{text}");
    }
}

/// Brackets leave nothing behind in the tree, and neither does a condition of one term.
#[test]
fn trees() {
    let memory = |address, value| Condition::Memory { address, value };
    let load = |event, value| Condition::Load { event, value };
    let none = Condition::Not(Box::new(Condition::Any(vec![load(2, 0), memory(1, 3)])));
    assert_eq!(
        parse(b"m0=1 /\\ ~(e2=0 \\/ m1=3)", &outcome()),
        Ok(Condition::All(vec![memory(0, 1), none]))
    );
    assert_eq!(parse(b"((e1=7))", &outcome()), Ok(load(1, 7)));
}

/// What may not stand there is named by its place, the first of the text.
#[test]
fn outside_the_grammar() {
    for (text, place) in [
        ("", 0),
        ("   ", 3),
        ("x", 0),
        ("m", 1),
        ("m 0=1", 1),
        ("m0", 2),
        ("m0 1", 3),
        ("m0=", 3),
        ("m0= x", 4),
        ("m0==1", 3),
        ("m0=-1", 3),
        ("M0=1", 0),
        ("0=m0", 0),
        ("m0=1 m0=1", 5),
        ("m0=1 )", 5),
        ("(m0=1", 5),
        ("(m0=1 ", 6),
        ("()", 1),
        ("~", 1),
        ("~)", 1),
        ("m0=1 /", 6),
        ("m0=1 / \\m0=1", 6),
        ("m0=1 \\", 6),
        ("m0=1 \\x", 6),
        ("m0=1 //", 6),
        ("m0=1 /\\", 7),
        ("m0=1 /\\ \\/", 8),
        ("m0=1\t", 4),
        ("m0=1\n", 4),
    ] {
        assert_eq!(told(text), Err((21, place)), "{text}");
    }
}

/// A bad number is named by its first digit; a needless zero is 21 whatever follows.
#[test]
fn numbers() {
    for (text, number, place) in [
        ("m2=1", 3, 1),
        ("m10=1", 3, 1),
        ("m18446744073709551616=1", 3, 1),
        ("e0=1", 3, 1),
        ("e3=1", 3, 1),
        ("m0=4294967296", 3, 3),
        ("m0=18446744073709551617", 3, 3),
        ("m00=1", 21, 1),
        ("m02=1", 21, 1),
        ("e01=7", 21, 1),
        ("m0= 01", 21, 4),
        ("m0=00000000000000000000004294967296", 21, 3),
        ("m2x", 3, 1),
        ("m2=01", 3, 1),
        ("m0=4294967296 )", 3, 3),
        ("m0=1 /\\ m9=1 )", 3, 9),
        ("m0=1 ) /\\ m9=1", 21, 5),
    ] {
        assert_eq!(told(text), Err((number, place)), "{text}");
    }
}

/// The greatest depth in every mixture of `~` and brackets, and one more of either.
#[test]
fn nesting() {
    for mixture in 0..1u32 << DEPTH {
        let signs = (0..DEPTH).map(|i| if mixture >> i & 1 == 1 { '~' } else { '(' });
        let front: String = signs.collect();
        let back = ")".repeat(front.matches('(').count());
        let truth = front.matches('~').count().is_multiple_of(2);
        assert_eq!(told(format!("{front}m0=1{back}")), Ok(truth), "{front}");
        for deeper in ["~", "(", "( x", "~ m9"] {
            assert_eq!(told(format!("{front}{deeper}")), Err((22, DEPTH)));
        }
    }
    let beside = "(~~~m0=1) /\\ ".repeat(8) + &"(".repeat(DEPTH);
    assert_eq!(told(&beside), Err((21, beside.len())));
}

/// A text that is too long is refused before anything else.
#[test]
fn lengths() {
    let padded = |length: usize| format!("{:length$}", "m0=1");
    assert_eq!(told(padded(TEXT)), Ok(true));
    assert_eq!(told(padded(TEXT + 1)), Err((3, TEXT)));
    assert_eq!(told("x".repeat(TEXT + 1)), Err((3, TEXT)));
    assert_eq!(told("x".repeat(TEXT)), Err((21, 0)));
}

/// The case comes before the text, and a text's fault has no length and finals.
#[test]
fn calls() {
    let judged = ordinary::judge::judge(DEKKER, 0);
    let case = read(DEKKER).expect("a record").case;
    for (model, text, answer, holds) in [
        (0, "e2=0 /\\ e5=0", judged, true),
        (0, "e2=0 /\\ e5=1", judged, false),
        (1, "e2=0 /\\", ordinary::judge::judge(DEKKER, 1), false),
        (2, "e2=0 /\\", Answer::refused(7), false),
        (0, "e2=0 /\\", fault(Why::Ends, 7), false),
        (0, "e3=1", fault(Why::NoLoad, 1), false),
        (0, "m2=1", fault(Why::NoAddress, 1), false),
    ] {
        let text = text.as_bytes();
        for asked in [ask(DEKKER, model, text), ask_case(&case, model, text)] {
            assert_eq!((asked.answer, asked.holds), (answer, holds), "{text:?}");
        }
    }
    let cut = ask(&DEKKER[..9], 0, b"e2=0");
    assert_eq!(
        (cut.answer.number, cut.answer.place, cut.holds),
        (1, 9, false)
    );
}

fn fault(why: Why, place: usize) -> Answer {
    Answer {
        place,
        ..Answer::refused(why.number())
    }
}
