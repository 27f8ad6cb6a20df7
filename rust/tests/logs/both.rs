//! Logs by the library and by the other implementation.

use litmus::{judge_log_raw, Log, LogAnswer, LogSummary};
use ordinary::answer::{Refusal, ENDS, ROOM};
use ordinary::log::{summary, Counts, Summary};

/// The other implementation's counts in the library's type.
pub fn tally(counts: Counts) -> litmus::Tally {
    litmus::Tally {
        records: counts.records,
        accepted: counts.accepted,
        broken: counts.broken,
    }
}

fn counts(tally: litmus::Tally) -> Counts {
    Counts {
        records: tally.records,
        accepted: tally.accepted,
        broken: tally.broken,
    }
}

/// The other implementation's summary in the library's type.
pub fn plain(summary: Summary) -> LogSummary {
    let refusal = |Refusal { number, place }| litmus::Refusal {
        number,
        place: (number != ROOM).then_some(place),
    };
    LogSummary {
        tally: tally(summary.counts),
        refusal: summary.refusal.map(refusal),
    }
}

/// Judges some bytes of a log with both, compares answers and tallies, and hands back the answer.
pub fn compare(bytes: &[u8], from: u64, last: bool, tally: &mut litmus::Tally) -> LogAnswer {
    let found = summary(bytes, counts(*tally));
    let waits = !last && found.refusal.is_none_or(|refusal| refusal.number == ENDS);
    let ending = found.refusal.filter(|_| !waits);
    let place = |refusal: Refusal| match refusal.number {
        ROOM => 0,
        _ => from.wrapping_add(refusal.place as u64),
    };
    let expected = LogAnswer {
        number: ending.map_or(0, |refusal| refusal.number),
        ended: !waits,
        place: ending.map_or(0, place),
        length: found.length,
    };
    let answer = judge_log_raw(bytes, from, last, tally);
    assert_eq!(answer, expected, "{bytes:?} from {from}, last: {last}");
    assert_eq!(counts(*tally), found.counts, "{bytes:?}");
    answer
}

/// Judges a log by a call for each piece, and one that it has ended. Compares each call, and hands
/// back the last answer.
pub fn call_by_call(pieces: &[&[u8]], from: u64, tally: &mut litmus::Tally) -> LogAnswer {
    let (mut kept, mut place) = (Vec::new(), from);
    for piece in pieces {
        kept.extend_from_slice(piece);
        let answer = compare(&kept, place, false, tally);
        if answer.ended {
            return answer;
        }
        kept.drain(..answer.length);
        place = place.wrapping_add(answer.length as u64);
    }
    compare(&kept, place, true, tally)
}

/// The summary of a log that comes in pieces.
pub fn fed(pieces: &[&[u8]], tally: litmus::Tally) -> LogSummary {
    let mut log = Log::with(tally);
    pieces.iter().for_each(|piece| log.feed(piece));
    log.finish()
}
