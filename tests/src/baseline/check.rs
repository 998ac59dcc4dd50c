//! Checking a plan in one walk over its records.

use super::plan::{CHAIN, PLAN_RECORD, RING};
use super::pool::{read_pool, test_limits};
use crate::layout::MOST_PLACES;
use crate::pools::PoolValue;
use crate::refusal::{refuse, Refusal};

const NO_PLACE: u8 = 255;

/// Returns the members served.
pub fn check(pool: &[u8], lc: u8, lp: u8, plan: &[u8]) -> Result<usize, Refusal> {
    let pool = read_pool(pool)?;
    test_limits(lc, lp)?;
    if !plan.len().is_multiple_of(PLAN_RECORD) {
        return refuse(11, 0);
    }
    let mut walk = Walk {
        pool,
        lc,
        lp,
        met: 0,
        before: None,
    };
    let mut served = 0;
    for (at, record) in plan.chunks_exact(PLAN_RECORD).enumerate() {
        match walk.record(record) {
            Ok(members) => served += members,
            Err(number) => return refuse(number, at),
        }
    }
    Ok(served)
}

struct Walk {
    pool: PoolValue,
    lc: u8,
    lp: u8,
    met: u16,
    before: Option<u8>,
}

impl Walk {
    /// The members of a record, or the number of its first cause.
    fn record(&mut self, record: &[u8]) -> Result<usize, u64> {
        let list = self.list(record)?;
        self.meet(list)?;
        let first = list[0];
        if self.before >= Some(first) || list.iter().any(|&place| place < first) {
            return Err(14);
        }
        self.before = Some(first);
        let chain = first < self.pool.houses;
        let closing = !chain && !self.gives(list[list.len() - 1], first);
        if closing || list.windows(2).any(|pair| !self.gives(pair[0], pair[1])) {
            return Err(15);
        }
        let members = list.len() - usize::from(chain);
        let (limit, kind) = if chain {
            (self.lp, CHAIN)
        } else {
            (self.lc, RING)
        };
        if members == 0 || members > usize::from(limit) {
            return Err(16);
        }
        if record[14] != kind || usize::from(record[15]) != members {
            return Err(17);
        }
        Ok(members)
    }

    fn list<'a>(&self, record: &'a [u8]) -> Result<&'a [u8], u64> {
        let bytes = &record[..MOST_PLACES];
        let length = bytes.iter().position(|&byte| byte == NO_PLACE);
        let (list, filling) = bytes.split_at(length.unwrap_or(MOST_PLACES));
        let there = list.iter().all(|&place| place < self.pool.places);
        let filled = filling.iter().all(|&byte| byte == NO_PLACE);
        if list.is_empty() || !there || !filled {
            return Err(12);
        }
        Ok(list)
    }

    fn meet(&mut self, list: &[u8]) -> Result<(), u64> {
        for &place in list {
            if self.met >> place & 1 == 1 {
                return Err(13);
            }
            self.met |= 1 << place;
        }
        Ok(())
    }

    fn gives(&self, giver: u8, taker: u8) -> bool {
        self.pool.gives[usize::from(giver)] >> taker & 1 == 1
    }
}
