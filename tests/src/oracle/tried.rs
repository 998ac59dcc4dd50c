//! How many parts of sets are tried while the best table is filled, by walking through them.

use super::best::is_marked;
use super::pool::{places_of, Pool};

/// "The call also returns how many parts it tried over all sets"; `best` holds the entries of
/// these marks.
pub fn parts_tried(pool: &Pool, exchanges: &[u16], best: &[u32]) -> u64 {
    let sets = 0..1 << pool.places;
    sets.map(|set| tried_of_set(pool, exchanges, best, set))
        .sum()
}

/// "The last tried is the first that is marked and, with the best of the rest, serves every
/// member in the set; where there is none, all are tried."
fn tried_of_set(pool: &Pool, exchanges: &[u16], best: &[u32], set: usize) -> u64 {
    let mut tried = 0;
    if members_in(pool, set) == 0 {
        return tried; // "A set without members tries none."
    }
    for part in nonempty_parts(set) {
        tried += 1;
        if is_marked(exchanges, part) && serves_every_member(pool, best, set, part) {
            break;
        }
    }
    tried
}

/// "From the set itself down by number": all numbers, and of them the parts.
fn nonempty_parts(set: usize) -> impl Iterator<Item = usize> {
    let is_part = move |&number: &usize| number & set == number;
    (1..=set).rev().filter(is_part)
}

/// The part's own members and those of "members × 65,536 + weeks" in the best of the rest.
fn serves_every_member(pool: &Pool, best: &[u32], set: usize, part: usize) -> bool {
    let rest = set - part;
    let served_of_rest = best[rest] / 65_536;
    members_in(pool, part) + served_of_rest as usize == members_in(pool, set)
}

fn members_in(pool: &Pool, set: usize) -> usize {
    pool.members_in(&places_of(set))
}
