//! A brute force of the swap board and the C interface it is compared with.

pub mod baseline;
pub mod bench_pools;
pub mod calls;
pub mod faulty;
pub mod filling;
pub mod large;
pub mod layout;
pub mod lent;
pub mod marks;
pub mod misses;
pub mod operations;
pub mod oracle;
pub mod plans;
pub mod pools;
pub mod program;
pub mod random;
pub mod refusal;
pub mod samples;
pub mod search;
pub mod timing;
