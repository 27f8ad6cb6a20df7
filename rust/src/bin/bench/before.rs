//! Another version of the library, which the build links under other names (`build.rs`).

use litmus::Answer;

#[link(name = "litmus_before", kind = "static")]
extern "C" {
    fn litmus_before_read(record: *const u8, size: usize) -> Answer;
    fn litmus_before_judge(record: *const u8, size: usize, model: u64) -> Answer;
}

pub fn read_raw(record: &[u8]) -> Answer {
    // SAFETY: pointer and length are a slice's, which the call only reads.
    unsafe { litmus_before_read(record.as_ptr(), record.len()) }
}

pub fn judge_raw(record: &[u8], model: u64) -> Answer {
    // SAFETY: as in `read_raw`; the model may be any number.
    unsafe { litmus_before_judge(record.as_ptr(), record.len(), model) }
}
