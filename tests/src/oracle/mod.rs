//! The meaning of the swap board, by brute force over lists of places.

pub mod best;
pub mod check;
pub mod exchange;
pub mod held;
pub mod plan;
pub mod pool;
pub mod set;
pub mod tried;
