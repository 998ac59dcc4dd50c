//! Filling the exchange table and the best table. With the bounds of each index tested
//! the exchange table takes 1.13 times as long, the best table 1.1 to 1.2 times.

use super::pool::{givers_of, test_limits, test_value};
use crate::layout::MOST_PLACES;
use crate::pools::PoolValue;
use crate::refusal::{refuse, Refusal};

/// What a member is worth beside its weeks, whose sum is always below this.
pub const MEMBER_WORTH: u32 = 65_536;
/// A marked set is worth this, its members and their weeks, any other 0: so a sum of a
/// worth and a best entry counts exactly if it is not below this.
pub const MARK: u32 = 1 << 31;

pub fn fill_exchanges(
    pool: &PoolValue,
    lc: u8,
    lp: u8,
    table: &mut [u16],
) -> Result<usize, Refusal> {
    test_value(pool)?;
    test_limits(lc, lp)?;
    let entries = entries_needed(pool, table.len(), 8)?;
    let table = &mut table[..entries];
    let givers = givers_of(pool);
    fill_ends(pool, &givers, lc, lp, table);
    keep_exchanges(pool, &givers, table);
    Ok(entries)
}

/// Leaves in `worth`, which is as long as a best table, what each set is worth. Returns the
/// entries written and the parts tried.
pub fn fill_best(
    pool: &PoolValue,
    exchanges: &[u16],
    worth: &mut [u32],
    best: &mut [u32],
) -> Result<(usize, u64), Refusal> {
    let entries = test_best(pool, exchanges, best)?;
    let worth = &mut worth[..entries];
    fill_held(pool, MARK, worth);
    let tried = fill_greatest(pool, &exchanges[..entries], worth, &mut best[..entries]);
    Ok((entries, tried))
}

/// What is tested before the best table is filled; returns the entries.
pub fn test_best(pool: &PoolValue, exchanges: &[u16], best: &[u32]) -> Result<usize, Refusal> {
    test_value(pool)?;
    entries_needed(pool, exchanges.len(), 8)?;
    entries_needed(pool, best.len(), 9)
}

pub fn entries_needed(pool: &PoolValue, lent: usize, number: u64) -> Result<usize, Refusal> {
    let entries = 1 << pool.places;
    if lent < entries {
        return refuse(number, 0);
    }
    Ok(entries)
}

/// Pass one: the ends of all paths through a set that begin at its lowest place;
/// none where the set is too large for an exchange that begins there.
fn fill_ends(pool: &PoolValue, givers: &[u16; MOST_PLACES], lc: u8, lp: u8, table: &mut [u16]) {
    let houses = (1 << pool.houses) - 1;
    table[0] = 0;
    for s in 1..table.len() {
        let lowest = s & s.wrapping_neg();
        let largest = if lowest & houses != 0 { lp + 1 } else { lc };
        let mut ends = 0;
        if s.count_ones() <= u32::from(largest) {
            ends = path_ends(givers, table, s);
        }
        table[s] = ends;
    }
}

#[inline(always)]
fn path_ends(givers: &[u16; MOST_PLACES], table: &[u16], s: usize) -> u16 {
    let mut others = s & (s - 1);
    let mut ends = if others == 0 { s } else { 0 };
    while others != 0 {
        let v = others.trailing_zeros();
        let bit = others & others.wrapping_neg();
        // SAFETY: the set without one of its places is below it and so in the table,
        // which has an entry for each set of at most 14 places.
        let end = unsafe { table.get_unchecked(s ^ bit) & givers.get_unchecked(v as usize) };
        ends |= usize::from(end != 0) << v;
        others ^= bit;
    }
    ends as u16
}

/// Pass two: of a ring the ends that give to its first place; a house alone is no
/// chain.
fn keep_exchanges(pool: &PoolValue, givers: &[u16; MOST_PLACES], table: &mut [u16]) {
    for (lowest, &closing) in givers.iter().enumerate().take(pool.places.into()) {
        let house = lowest < usize::from(pool.houses);
        let kept = if house { !(1 << lowest) } else { closing };
        let mut s = 1 << lowest;
        while s < table.len() {
            table[s] &= kept;
            s += 2 << lowest;
        }
    }
}

/// The members and weeks of each set above those of the empty one. Each place doubles the sets:
/// those below it come once more with it.
pub fn fill_held(pool: &PoolValue, by_none: u32, held: &mut [u32]) {
    held[0] = by_none;
    for place in 0..usize::from(pool.places) {
        let house = place < usize::from(pool.houses);
        let more = if house {
            0
        } else {
            MEMBER_WORTH + u32::from(pool.weeks[place])
        };
        let (without, with) = held[..2 << place].split_at_mut(1 << place);
        for (entry, &below) in with.iter_mut().zip(&*without) {
            *entry = below + more;
        }
    }
}

/// Returns the parts tried. `worth` comes with every set as if it were marked; each that is not
/// becomes 0 before a larger one reads it. The table is cleared first because the empty part,
/// worth 0, reads the very entry that is to be written, and because sets without members try
/// nothing.
fn fill_greatest(pool: &PoolValue, exchanges: &[u16], worth: &mut [u32], best: &mut [u32]) -> u64 {
    let first_with_member = 1 << pool.houses;
    for s in 0..first_with_member {
        worth[s] = if s != 0 && exchanges[s] != 0 { MARK } else { 0 };
    }
    best.fill(0);
    let mut tried = 0;
    for s in first_with_member..best.len() {
        let all = worth[s];
        let (greatest, of_set) = if exchanges[s] != 0 {
            (all, 1)
        } else {
            worth[s] = 0;
            greatest_of_parts(worth, best, s, all)
        };
        best[s] = greatest.saturating_sub(MARK);
        tried += of_set;
    }
    tried
}

/// The greatest sum, and the parts tried until one reaches `all`, what the whole set is worth if
/// marked. That is where every member is served: neither a part nor an entry of the rest holds
/// more than its own members and their weeks, so a sum of `all` has each member, and a marked
/// part that serves each has all weeks too.
///
/// Parts go by fours, with and without the two lowest places, so that no load waits for another;
/// that is their falling order. The last group has the empty part, which is worth 0 and not
/// counted. Not inlined, so that the loop has all registers.
#[inline(never)]
fn greatest_of_parts(worth: &[u32], best: &[u32], s: usize, all: u32) -> (u32, u64) {
    let upper = s & (s - 1);
    if upper == 0 {
        return (0, 1);
    }
    let rest = upper & (upper - 1);
    let (a, b) = (s ^ upper, upper ^ rest);
    let (worth_a, worth_b, worth_ab) = (&worth[a..], &worth[b..], &worth[a + b..]);
    let (best_a, best_b, best_ab) = (&best[a..], &best[b..], &best[a + b..]);
    let (mut t, mut greatest, mut before) = (rest, 0, 0);
    loop {
        let u = rest ^ t;
        // SAFETY: t and u are parts of s without a and b, so with them they are parts
        // of s, and s is below the length of both tables.
        let sums = unsafe {
            [
                worth_ab.get_unchecked(t) + best.get_unchecked(u),
                worth_b.get_unchecked(t) + best_a.get_unchecked(u),
                worth_a.get_unchecked(t) + best_b.get_unchecked(u),
                worth.get_unchecked(t) + best_ab.get_unchecked(u),
            ]
        };
        greatest = sums[0].max(sums[1]).max(sums[2].max(sums[3])).max(greatest);
        if greatest == all {
            let at = sums.iter().position(|&sum| sum == all).unwrap_or(0);
            return (greatest, before + 1 + at as u64);
        }
        before += 4;
        if t == 0 {
            return (greatest, before - 1);
        }
        t = (t - 1) & rest;
    }
}

/// The next part of a set, rising; the empty part after the set itself.
pub fn next_part(t: usize, set: usize) -> usize {
    t.wrapping_sub(set) & set
}
