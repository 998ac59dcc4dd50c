//! The best table in plain, safe Rust: the words of the request, one part at a time.

use super::tables::{fill_held, test_best, MEMBER_WORTH};
use crate::pools::PoolValue;
use crate::refusal::Refusal;

/// Leaves in `held`, which is as long as a best table, the members and weeks of each set. Returns
/// the entries written and the parts tried.
pub fn fill_best(
    pool: &PoolValue,
    exchanges: &[u16],
    held: &mut [u32],
    best: &mut [u32],
) -> Result<(usize, u64), Refusal> {
    let entries = test_best(pool, exchanges, best)?;
    let held = &mut held[..entries];
    fill_held(pool, 0, held);
    let mut tried = 0;
    for s in 0..entries {
        let (greatest, of_set) = try_parts(exchanges, held, best, s);
        best[s] = greatest;
        tried += of_set;
    }
    Ok((entries, tried))
}

/// The greatest sum and the parts tried.
fn try_parts(exchanges: &[u16], held: &[u32], best: &[u32], s: usize) -> (u32, u64) {
    let members = held[s] / MEMBER_WORTH;
    let (mut greatest, mut tried) = (0, 0);
    let mut t = if members == 0 { 0 } else { s };
    while t != 0 {
        tried += 1;
        if exchanges[t] != 0 {
            let sum = held[t] + best[s ^ t];
            greatest = greatest.max(sum);
            if sum / MEMBER_WORTH == members {
                break;
            }
        }
        t = (t - 1) & s;
    }
    (greatest, tried)
}
