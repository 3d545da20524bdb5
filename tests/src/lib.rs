//! Differential tests of the engine: its answers against those of Rust, of csx
//! and of whole-number arithmetic. See README.md.

pub mod engine;
pub mod kinds;
pub mod plan;
pub mod program;
pub mod random;
pub mod report;
pub mod summary;
pub mod whole;
