//! The C interface and its safe wrappers.

use crate::layout::MOST_PLACES;
use crate::oracle::exchange::Limits;
use crate::pools::PoolValue;
use crate::refusal::Refusal;

/// What every call returns: `number` 0 when accepted, else the refusal's
/// number with its spot `at`.
#[repr(C)]
#[derive(Clone, Copy, Debug, PartialEq, Eq)]
pub struct Answer {
    pub number: u64,
    pub at: u64,
    pub first: u64,
    pub second: u64,
}

impl Answer {
    pub fn accepted(first: u64, second: u64) -> Self {
        Answer {
            number: 0,
            at: 0,
            first,
            second,
        }
    }

    pub fn refused(refusal: Refusal) -> Self {
        Answer {
            number: refusal.number,
            at: refusal.at,
            first: 0,
            second: 0,
        }
    }
}

extern "C" {
    fn swap_read_pool(pool: *const u8, pool_len: usize, gives: *mut u16, weeks: *mut u16)
        -> Answer;

    fn swap_fill_exchanges(
        places: u8,
        houses: u8,
        gives: *const u16,
        weeks: *const u16,
        lc: u8,
        lp: u8,
        table: *mut u16,
        table_len: usize,
    ) -> Answer;

    fn swap_fill_best(
        places: u8,
        houses: u8,
        gives: *const u16,
        weeks: *const u16,
        exchanges: *const u16,
        exchanges_len: usize,
        best: *mut u32,
        best_len: usize,
    ) -> Answer;

    fn swap_clear(
        pool: *const u8,
        pool_len: usize,
        lc: u8,
        lp: u8,
        exchanges: *mut u16,
        exchanges_len: usize,
        best: *mut u32,
        best_len: usize,
        plan: *mut u8,
        plan_len: usize,
    ) -> Answer;

    fn swap_check(
        pool: *const u8,
        pool_len: usize,
        lc: u8,
        lp: u8,
        plan: *const u8,
        plan_len: usize,
    ) -> Answer;
}

pub fn read_pool(
    pool: &[u8],
    gives: &mut [u16; MOST_PLACES],
    weeks: &mut [u16; MOST_PLACES],
) -> Answer {
    // SAFETY: pointer and length are those of a live slice; `gives` and `weeks` have 14
    // entries each and are lent alone.
    unsafe {
        swap_read_pool(
            pool.as_ptr(),
            pool.len(),
            gives.as_mut_ptr(),
            weeks.as_mut_ptr(),
        )
    }
}

pub fn fill_exchanges(pool: &PoolValue, limits: Limits, table: &mut [u16]) -> Answer {
    // SAFETY: `gives` and `weeks` have 14 entries each; the table is a live slice lent alone.
    unsafe {
        swap_fill_exchanges(
            pool.places,
            pool.houses,
            pool.gives.as_ptr(),
            pool.weeks.as_ptr(),
            limits.lc,
            limits.lp,
            table.as_mut_ptr(),
            table.len(),
        )
    }
}

pub fn fill_best(pool: &PoolValue, exchanges: &[u16], best: &mut [u32]) -> Answer {
    // SAFETY: `gives` and `weeks` have 14 entries each; both tables are live slices, `best`
    // lent alone.
    unsafe {
        swap_fill_best(
            pool.places,
            pool.houses,
            pool.gives.as_ptr(),
            pool.weeks.as_ptr(),
            exchanges.as_ptr(),
            exchanges.len(),
            best.as_mut_ptr(),
            best.len(),
        )
    }
}

pub fn clear(
    pool: &[u8],
    limits: Limits,
    exchanges: &mut [u16],
    best: &mut [u32],
    plan: &mut [u8],
) -> Answer {
    // SAFETY: all are live slices, the tables and the plan lent alone.
    unsafe {
        swap_clear(
            pool.as_ptr(),
            pool.len(),
            limits.lc,
            limits.lp,
            exchanges.as_mut_ptr(),
            exchanges.len(),
            best.as_mut_ptr(),
            best.len(),
            plan.as_mut_ptr(),
            plan.len(),
        )
    }
}

pub fn check(pool: &[u8], limits: Limits, plan: &[u8]) -> Answer {
    // SAFETY: both are live slices.
    unsafe {
        swap_check(
            pool.as_ptr(),
            pool.len(),
            limits.lc,
            limits.lp,
            plan.as_ptr(),
            plan.len(),
        )
    }
}
