//! Clearing: both tables, then the plan.

use super::plan::{write_plan, Filled, Scratch, PLAN_RECORD};
use super::pool::{read_pool, test_limits};
use super::tables::{entries_needed, fill_best, fill_exchanges};
use crate::layout::MOST_PLACES;
use crate::refusal::{refuse, Refusal};

/// What clearing keeps beside the tables, lent so that no call has to make it.
pub struct Workspace {
    worth: Vec<u32>,
    scratch: Scratch,
}

impl Default for Workspace {
    /// Enough for every pool.
    fn default() -> Self {
        Workspace {
            worth: vec![0; 1 << MOST_PLACES],
            scratch: Scratch::default(),
        }
    }
}

/// Returns the members served and the number of records.
pub fn clear(
    pool: &[u8],
    lc: u8,
    lp: u8,
    exchanges: &mut [u16],
    best: &mut [u32],
    plan: &mut [u8],
    workspace: &mut Workspace,
) -> Result<(usize, usize), Refusal> {
    let pool = read_pool(pool)?;
    test_limits(lc, lp)?;
    entries_needed(&pool, exchanges.len(), 8)?;
    entries_needed(&pool, best.len(), 9)?;
    if plan.len() < PLAN_RECORD * usize::from(pool.places) {
        return refuse(10, 0);
    }
    fill_exchanges(&pool, lc, lp, exchanges)?;
    fill_best(&pool, exchanges, &mut workspace.worth, best)?;
    let filled = Filled::new(&pool, &workspace.worth, best);
    Ok(write_plan(&filled, &mut workspace.scratch, plan))
}
