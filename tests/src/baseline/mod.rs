//! The same calls in the best Rust we know, tuned: the tests of what is lent as the
//! calls make them, and the fastest forms found for the tables and the plan. Speed
//! is measured against it. What it keeps between calls is lent by the caller. Only
//! `plain` is not tuned.

pub mod check;
pub mod clear;
pub mod plain;
pub mod plan;
pub mod pool;
pub mod tables;
