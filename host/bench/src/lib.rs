//! What the benchmark measures: docs/BENCHMARK.md says how to run it.

pub mod calls;
pub mod growth;
pub mod lent;
pub mod map;
pub mod object;
pub mod progress;
pub mod size;
pub mod sound;
pub mod stack;
