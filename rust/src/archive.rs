//! The functions of `litmus.h`.

use crate::Tally;
use crate::{Answer, Case, CaseAnswer, Choice, ConditionAnswer, Frame, LogAnswer, Part, Rows};
use crate::{TraceAnswer, TraceReading};

// Not bundled, so that the wrapper itself, and a program that calls none of these, builds without
// the archive.
#[link(name = "litmus", kind = "static", modifiers = "-bundle")]
extern "C" {
    pub fn litmus_read(record: *const u8, size: usize) -> Answer;
    pub fn litmus_judge(record: *const u8, size: usize, model: u64) -> Answer;
    pub fn litmus_renumber(
        record: *const u8,
        size: usize,
        threads: u64,
        addresses: u64,
        out: *mut u8,
        room: usize,
        at: u64,
    ) -> Answer;
    pub fn litmus_representative(
        record: *const u8,
        size: usize,
        out: *mut u8,
        room: usize,
        at: u64,
    ) -> Answer;
    pub fn litmus_lesser(
        first: *const u8,
        first_size: usize,
        second: *const u8,
        second_size: usize,
    ) -> Choice;
    pub fn litmus_name(record: *const u8, size: usize) -> Part;
    pub fn litmus_judged_name(record: *const u8, size: usize, model: u64) -> Part;
    pub fn litmus_renumbered_name(
        record: *const u8,
        size: usize,
        threads: u64,
        addresses: u64,
        room: usize,
        at: u64,
    ) -> Part;
    pub fn litmus_condition(
        record: *const u8,
        size: usize,
        model: u64,
        text: *const u8,
        text_size: usize,
    ) -> ConditionAnswer;
    pub fn litmus_log_judge(
        bytes: *const u8,
        size: usize,
        from: u64,
        last: bool,
        tally: *mut Tally,
    ) -> LogAnswer;
    pub fn litmus_area_next(area: *const u8, size: usize, at: u64) -> Frame;
    pub fn litmus_area_append(
        area: *mut u8,
        size: usize,
        record: *const u8,
        record_size: usize,
        allowed: u64,
    ) -> Answer;
    pub fn litmus_area_repair(area: *mut u8, size: usize, allowed: u64) -> Answer;
    pub fn litmus_trace(trace: *const u8, size: usize) -> TraceAnswer;
    pub fn litmus_trace_read(trace: *const u8, size: usize) -> TraceReading;
    pub fn litmus_case_read(record: *const u8, size: usize) -> CaseAnswer;
    pub fn litmus_case_write(c: Case, out: *mut u8, room: usize, at: u64) -> Answer;
    pub fn litmus_case_judge(c: Case, model: u64) -> Answer;
    pub fn litmus_case_condition(
        c: Case,
        model: u64,
        text: *const u8,
        text_size: usize,
    ) -> ConditionAnswer;
    pub fn litmus_case_renumber(c: Case, threads: u64, addresses: u64) -> CaseAnswer;
    pub fn litmus_case_representative(c: Case) -> CaseAnswer;
    pub fn litmus_composite(first: u64, then: u64) -> u64;
    pub fn litmus_inverse(q: u64) -> u64;
    pub fn litmus_fits(q: u64, labels: usize) -> bool;
    pub fn litmus_rule11(rows: *const Rows, threads: usize, events: usize) -> u32;
    pub fn litmus_rule11_by_threes(rows: *const Rows, threads: usize, events: usize) -> u32;
    pub fn litmus_rule11_tests_agree(rows: *const Rows, threads: usize, events: usize) -> bool;
}
