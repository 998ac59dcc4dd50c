//! Rings, chains and the exchange table: "the meaning is lists of places".

use super::pool::{places_of, set_number, Pool};
use crate::pools::PoolValue;
use crate::refusal::{refuse, Refusal};

/// "Lc for rings and Lp for chains, each 0 to 14; 0 forbids that sort."
#[derive(Clone, Copy, Debug, PartialEq, Eq)]
pub struct Limits {
    pub lc: u8,
    pub lp: u8,
}

impl Limits {
    pub fn new(lc: u8, lp: u8) -> Self {
        Limits { lc, lp }
    }

    /// Cause 7: "a limit above 14".
    pub fn test(self) -> Result<(), Refusal> {
        if self.lc > 14 || self.lp > 14 {
            return refuse(7, 0);
        }
        Ok(())
    }
}

pub fn is_exchange(pool: &Pool, limits: Limits, list: &[usize]) -> bool {
    is_ring(pool, limits, list) || is_chain(pool, limits, list)
}

/// "A ring is a list of 1 to Lc different members, each giving to the next and
/// the last to the first."
pub fn is_ring(pool: &Pool, limits: Limits, list: &[usize]) -> bool {
    !list.is_empty()
        && list.len() <= usize::from(limits.lc)
        && all_different(list)
        && list.iter().all(|&place| pool.is_member(place))
        && each_gives_to_the_next(pool, list)
        && pool.has_arc(list[list.len() - 1], list[0])
}

/// "A chain is one house followed by 1 to Lp different members, each giving to
/// the next." "Lp counts members only."
pub fn is_chain(pool: &Pool, limits: Limits, list: &[usize]) -> bool {
    let Some((&first, members)) = list.split_first() else {
        return false;
    };
    pool.is_house(first)
        && !members.is_empty()
        && members.len() <= usize::from(limits.lp)
        && all_different(members)
        && members.iter().all(|&place| pool.is_member(place))
        && each_gives_to_the_next(pool, list)
}

fn each_gives_to_the_next(pool: &Pool, list: &[usize]) -> bool {
    list.windows(2).all(|pair| pool.has_arc(pair[0], pair[1]))
}

fn all_different(list: &[usize]) -> bool {
    (0..list.len()).all(|i| !list[..i].contains(&list[i]))
}

/// "The set of places that can stand last in an exchange using exactly S and
/// beginning at S's lowest place"; `places` are those of S, rising.
pub fn last_places(pool: &Pool, limits: Limits, places: &[usize]) -> Vec<usize> {
    let mut last = Vec::new();
    if places.is_empty() {
        return last;
    }
    for_each_order(&mut places.to_vec(), 1, &mut |list| {
        let end = list[list.len() - 1];
        if !last.contains(&end) && is_exchange(pool, limits, list) {
            last.push(end);
        }
    });
    last
}

/// Visits every order of the places from index `fixed` on.
fn for_each_order(list: &mut [usize], fixed: usize, visit: &mut impl FnMut(&[usize])) {
    if fixed >= list.len() {
        return visit(list);
    }
    for next in fixed..list.len() {
        list.swap(fixed, next);
        for_each_order(list, fixed + 1, visit);
        list.swap(fixed, next);
    }
}

/// "The exchange table has 2 to the power n entries"; "0 means S is no exchange".
pub fn table(pool: &Pool, limits: Limits) -> Vec<u16> {
    let entry = |set| set_number(&last_places(pool, limits, &places_of(set))) as u16;
    (0..1 << pool.places).map(entry).collect()
}

/// The filling call with room for `room` entries: causes 6, 7, 8, else the table.
pub fn fill(value: &PoolValue, limits: Limits, room: usize) -> Result<Vec<u16>, Refusal> {
    let pool = Pool::of_value(value)?;
    limits.test()?;
    test_exchange_room(&pool, room)?;
    Ok(table(&pool, limits))
}

/// Cause 8: "exchange table under 2 to the n entries".
pub fn test_exchange_room(pool: &Pool, room: usize) -> Result<(), Refusal> {
    if room < 1 << pool.places {
        return refuse(8, 0);
    }
    Ok(())
}
