//! The first of the best plans, chosen exchange by exchange over the filled tables.

use super::pool::givers_of;
use super::tables::{next_part, MARK};
use crate::layout::MOST_PLACES;
use crate::pools::PoolValue;

pub const PLAN_RECORD: usize = 16;
pub const RING: u8 = 82;
pub const CHAIN: u8 = 67;
const NO_PLACE: usize = 255;

/// A pool with its filled tables; `worth` is left by filling the best table.
pub struct Filled<'a> {
    pool: &'a PoolValue,
    givers: [u16; MOST_PLACES],
    worth: &'a [u32],
    best: &'a [u32],
}

impl<'a> Filled<'a> {
    /// The tables must have an entry for each set of the pool's places.
    pub fn new(pool: &'a PoolValue, worth: &'a [u32], best: &'a [u32]) -> Self {
        let entries = 1 << pool.places;
        Filled {
            pool,
            givers: givers_of(pool),
            worth: &worth[..entries],
            best: &best[..entries],
        }
    }

    fn is_house(&self, place: usize) -> bool {
        place < usize::from(self.pool.houses)
    }
}

/// What the choice keeps while it works.
pub struct Scratch {
    /// The sets that can complete the lowest free place, without it.
    completing: Vec<usize>,
    /// For each set the places that can begin a path through just that set which
    /// ends where the exchange may end.
    begins: Vec<u16>,
}

impl Default for Scratch {
    /// Enough for every pool.
    fn default() -> Self {
        Scratch {
            completing: Vec::with_capacity(1 << MOST_PLACES),
            begins: vec![0; 1 << MOST_PLACES],
        }
    }
}

/// Returns the members served and the number of records.
pub fn write_plan(filled: &Filled, scratch: &mut Scratch, plan: &mut [u8]) -> (usize, usize) {
    let mut free = filled.best.len() - 1;
    let mut served = 0;
    let mut records = 0;
    while filled.best[free] > 0 {
        let first = free.trailing_zeros() as usize;
        let union = find_completing(filled, free, &mut scratch.completing);
        free &= free - 1;
        if scratch.completing.is_empty() {
            continue;
        }
        fill_begins(filled, first, union, scratch);
        let record = &mut plan[PLAN_RECORD * records..][..PLAN_RECORD];
        free &= !write_record(filled, first, scratch, record);
        served += usize::from(record[15]);
        records += 1;
    }
    (served, records)
}

/// Finds the sets that make the lowest free place an exchange which keeps the most
/// members and weeks served; returns the union of them.
fn find_completing(filled: &Filled, free: usize, completing: &mut Vec<usize>) -> usize {
    let rest = free & (free - 1);
    let first = free ^ rest;
    let most = filled.best[free] + MARK;
    let mut union = 0;
    let mut t = 0;
    completing.clear();
    loop {
        if filled.worth[first | t] + filled.best[rest ^ t] == most {
            completing.push(t);
            union |= t;
        }
        t = next_part(t, rest);
        if t == 0 {
            return union;
        }
    }
}

/// Fills `begins` for the parts of the union that are not larger than the largest
/// completing set.
fn fill_begins(filled: &Filled, first: usize, union: usize, scratch: &mut Scratch) {
    let closing = if filled.is_house(first) {
        usize::MAX
    } else {
        filled.givers[first].into()
    };
    let sizes = scratch.completing.iter().map(|t| t.count_ones());
    let largest = sizes.max().unwrap_or(0);
    let mut t = next_part(0, union);
    while t != 0 {
        let mut begins = 0;
        if t.is_power_of_two() {
            begins = t & closing;
        } else if t.count_ones() <= largest {
            begins = path_begins(&filled.pool.gives, &scratch.begins, t);
        }
        scratch.begins[t] = begins as u16;
        t = next_part(t, union);
    }
}

#[inline(always)]
fn path_begins(gives: &[u16; MOST_PLACES], begins: &[u16], t: usize) -> usize {
    let mut found = 0;
    let mut left = t;
    while left != 0 {
        let bit = left & left.wrapping_neg();
        let v = left.trailing_zeros();
        let goes_on = begins[t ^ bit] & gives[v as usize] != 0;
        found |= usize::from(goes_on) << v;
        left ^= bit;
    }
    found
}

/// Writes the record that begins at `first`, place by place the least that some
/// completing set allows; returns the set of the others in it.
fn write_record(filled: &Filled, first: usize, scratch: &mut Scratch, record: &mut [u8]) -> usize {
    let Scratch { completing, begins } = scratch;
    record.fill(NO_PLACE as u8);
    record[0] = first as u8;
    let mut last = first;
    let mut used = 0;
    let mut length = 1;
    loop {
        let gives = filled.pool.gives[last];
        let mut least = NO_PLACE;
        for &t in completing.iter() {
            // A list that goes on comes before its own beginning.
            let next = if t == used {
                0
            } else {
                begins[t ^ used] & gives
            };
            if next != 0 {
                least = least.min(next.trailing_zeros() as usize);
            }
        }
        if least == NO_PLACE {
            break;
        }
        completing.retain(|&t| t != used && (begins[t ^ used] & gives) >> least & 1 == 1);
        record[length] = least as u8;
        used |= 1 << least;
        last = least;
        length += 1;
    }
    let chain = filled.is_house(first);
    record[14] = if chain { CHAIN } else { RING };
    record[15] = (length - usize::from(chain)) as u8;
    used
}
