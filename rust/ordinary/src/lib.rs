//! Litmus records in ordinary Rust, written from the definitions alone.
//!
//! It is what the proved library is compared with: plain sets of pairs and loops over events.
//! [`rows`] is a second, quick implementation, the yardstick of the benchmark. [`storage`] judges
//! traces of the storage machine. Nothing here is proved, and nothing here knows the proved library.

pub mod answer;
pub mod area;
pub mod case;
pub mod condition;
pub mod generate;
pub mod judge;
pub mod limits;
pub mod log;
mod numbers;
pub mod permutation;
pub mod random;
pub mod read;
pub mod renumber;
pub mod representative;
pub mod rows;
pub mod storage;
pub mod tally;
pub mod text;
pub mod write;

pub use answer::Answer;
pub use case::{Case, Class, Dependency, Event, Kind, Order};
