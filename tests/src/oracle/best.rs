//! The best table of a lent exchange table of any contents.

use super::exchange::test_exchange_room;
use super::held::Held;
use super::pool::{places_of, Pool};
use crate::pools::PoolValue;
use crate::refusal::{refuse, Refusal};

/// "Takes as marked every set with a nonzero entry."
pub fn is_marked(exchanges: &[u16], set: usize) -> bool {
    exchanges[set] != 0
}

/// Only nonempty ones count.
fn marked_sets(pool: &Pool, exchanges: &[u16]) -> Vec<Vec<usize>> {
    let sets = 1..1 << pool.places;
    let marked = sets.filter(|&set| is_marked(exchanges, set));
    marked.map(places_of).collect()
}

/// "The greatest members × 65,536 + weeks that disjoint marked sets inside the set can
/// hold."
fn entry(pool: &Pool, marked: &[Vec<usize>], within: &[usize]) -> u32 {
    let inside = |set: &&Vec<usize>| set.iter().all(|place| within.contains(place));
    let sets: Vec<&Vec<usize>> = marked.iter().filter(inside).collect();
    most_held(pool, &sets).entry()
}

/// Tries each set as the first one chosen, with every choice among the later
/// sets apart from it.
fn most_held(pool: &Pool, sets: &[&Vec<usize>]) -> Held {
    let chosen_first = |at: usize| {
        let chosen = sets[at];
        let later = sets[at + 1..].iter().copied();
        let apart: Vec<&Vec<usize>> = later.filter(|set| disjoint(set, chosen)).collect();
        Held::by(pool, chosen) + most_held(pool, &apart)
    };
    let held = (0..sets.len()).map(chosen_first);
    held.max().unwrap_or_default()
}

pub fn disjoint(some: &[usize], others: &[usize]) -> bool {
    !some.iter().any(|place| others.contains(place))
}

pub fn table(pool: &Pool, exchanges: &[u16]) -> Vec<u32> {
    let marked = marked_sets(pool, exchanges);
    let sets = 0..1 << pool.places;
    sets.map(|set| entry(pool, &marked, &places_of(set)))
        .collect()
}

/// The filling call with room for `room` entries: causes 6, 8, 9, else the table.
pub fn fill(value: &PoolValue, exchanges: &[u16], room: usize) -> Result<Vec<u32>, Refusal> {
    let pool = Pool::of_value(value)?;
    test_exchange_room(&pool, exchanges.len())?;
    test_best_room(&pool, room)?;
    Ok(table(&pool, exchanges))
}

/// Cause 9: "best table under 2 to the n entries".
pub fn test_best_room(pool: &Pool, room: usize) -> Result<(), Refusal> {
    if room < 1 << pool.places {
        return refuse(9, 0);
    }
    Ok(())
}
