//! The description in the README in plain Rust: what a job is, what a sheet is, what a map is, and what the calls
//! must answer.
//!
//! It shares nothing with the library. Where it can be clear or fast, it is clear.

pub mod answer;
pub mod check;
pub mod choke;
pub mod job;
pub mod limits;
pub mod lines;
pub mod map;
pub mod plan;
pub mod planner;
pub mod reader;
pub mod sheet;
pub mod walks;
