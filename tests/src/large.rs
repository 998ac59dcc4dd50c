//! Second methods for pools too large for the brute force.

use crate::oracle::exchange::{is_exchange, Limits};
use crate::oracle::held::Held;
use crate::oracle::plan::{Cleared, Plan};
use crate::oracle::pool::{places_of, set_number, Pool};
use std::collections::HashSet;

/// The exchange table by growing paths place by place, each set with each last
/// place just once.
pub fn exchanges_by_paths(pool: &Pool, limits: Limits) -> Vec<u16> {
    let mut table = vec![0; 1 << pool.places];
    let mut seen = vec![0; 1 << pool.places];
    for first in 0..pool.places {
        grow_paths(pool, limits, &mut vec![first], &mut seen, &mut table);
    }
    table
}

fn grow_paths(
    pool: &Pool,
    limits: Limits,
    path: &mut Vec<usize>,
    seen: &mut [u16],
    table: &mut [u16],
) {
    let set = set_number(path);
    let last = path[path.len() - 1];
    if seen[set] >> last & 1 == 1 {
        return;
    }
    seen[set] |= 1 << last;
    if is_exchange(pool, limits, path) {
        table[set] |= 1 << last;
    }
    if pool.members_in(path) >= longest_from(pool, limits, path[0]) {
        return;
    }
    for &next in &pool.gives[last] {
        if next > path[0] && !path.contains(&next) {
            path.push(next);
            grow_paths(pool, limits, path, seen, table);
            path.pop();
        }
    }
}

/// The most members of an exchange that begins at this place.
fn longest_from(pool: &Pool, limits: Limits, first: usize) -> usize {
    let limit = if pool.is_house(first) {
        limits.lp
    } else {
        limits.lc
    };
    limit.into()
}

/// The entry of one set by a backward search from each end, which stops at the
/// first path found; for dense pools.
pub fn entry_by_search(pool: &Pool, limits: Limits, places: &[usize]) -> u16 {
    let Some((&first, others)) = places.split_first() else {
        return 0;
    };
    let members = pool.members_in(places);
    let chain = pool.is_house(first);
    let too_long = members > longest_from(pool, limits, first);
    if members == 0 || too_long || members < others.len() {
        return 0;
    }
    let can_be_last = |&&end: &&usize| {
        let closed = chain || pool.has_arc(end, first);
        let between: Vec<usize> = others.iter().copied().filter(|&v| v != end).collect();
        closed && (end != first || others.is_empty()) && reached(pool, first, between, end)
    };
    let ends: Vec<usize> = places.iter().filter(can_be_last).copied().collect();
    set_number(&ends) as u16
}

/// Whether a path leads from `first` through all of `between` to `end`.
fn reached(pool: &Pool, first: usize, between: Vec<usize>, end: usize) -> bool {
    if between.is_empty() {
        return end == first || pool.has_arc(first, end);
    }
    between.iter().any(|&giver| {
        let rest = between.iter().copied().filter(|&v| v != giver).collect();
        pool.has_arc(giver, end) && reached(pool, first, rest, giver)
    })
}

/// The best table's entries by the second method.
pub fn best_by_lowest_place(pool: &Pool, exchanges: &[u16]) -> Vec<u32> {
    let most = most_held(pool, exchanges);
    most.into_iter().map(Held::entry).collect()
}

/// The most that marked sets inside each set hold, by deciding what the lowest place of the
/// set is in: nothing, or one of the marked sets that hold it.
fn most_held(pool: &Pool, exchanges: &[u16]) -> Vec<Held> {
    let held: Vec<Held> = (0..1 << pool.places)
        .map(|set| Held::by(pool, &places_of(set)))
        .collect();
    let mut best = vec![Held::default(); held.len()];
    for set in 1..best.len() {
        let others = set & (set - 1);
        let lowest = set ^ others;
        let mut most = best[others];
        for part in parts_of(others) {
            let chosen = part | lowest;
            if exchanges[chosen] != 0 {
                most = most.max(held[chosen] + best[set ^ chosen]);
            }
        }
        best[set] = most;
    }
    best
}

/// All parts of a set, the set itself and the empty one included.
fn parts_of(set: usize) -> impl Iterator<Item = usize> {
    let next = move |&part: &usize| part.checked_sub(1).map(|below| below & set);
    std::iter::successors(Some(set), next)
}

/// What clearing leaves, by the second methods.
pub fn cleared(pool: &Pool, limits: Limits) -> Cleared {
    let exchanges = exchanges_by_paths(pool, limits);
    let best = most_held(pool, &exchanges);
    let plan = first_plan(pool, limits, &best);
    let best = best.into_iter().map(Held::entry).collect();
    Cleared::new(pool, &plan, exchanges, best)
}

/// The first of the best plans by trying records in the order of their bytes,
/// each kept if the most members, and of them the most weeks, can still be served with it
/// and behind it.
fn first_plan(pool: &Pool, limits: Limits, best: &[Held]) -> Plan {
    let mut plan = Plan::new();
    let mut free = best.len() - 1;
    while best[free].members > 0 {
        let exchange = first_exchange(pool, limits, best, free);
        free = free_behind(free, &exchange);
        plan.push(exchange);
    }
    plan
}

/// Records stand in rising order of first place, so places below the first are lost.
fn free_behind(free: usize, exchange: &[usize]) -> usize {
    let above = free >> exchange[0] << exchange[0];
    above & !set_number(exchange)
}

fn first_exchange(pool: &Pool, limits: Limits, best: &[Held], free: usize) -> Vec<usize> {
    for first in places_of(free) {
        let mut path = vec![first];
        if complete(pool, limits, best, free, &mut path, &mut HashSet::new()) {
            return path;
        }
    }
    panic!("no exchange keeps the most served: {pool:?} {limits:?}");
}

/// Makes the path the first exchange in byte order that begins with it and keeps
/// the most served. Going on comes before stopping, for 255 is the greatest byte.
fn complete(
    pool: &Pool,
    limits: Limits,
    best: &[Held],
    free: usize,
    path: &mut Vec<usize>,
    failed: &mut HashSet<(usize, usize)>,
) -> bool {
    let state = (set_number(path), path[path.len() - 1]);
    let too_long = pool.members_in(path) > longest_from(pool, limits, path[0]);
    if failed.contains(&state) || too_long {
        return false;
    }
    for &next in &pool.gives[state.1] {
        let open = free >> next & 1 == 1 && next > path[0];
        if open && !path.contains(&next) {
            path.push(next);
            if complete(pool, limits, best, free, path, failed) {
                return true;
            }
            path.pop();
        }
    }
    let served = Held::by(pool, path) + best[free_behind(free, path)];
    if is_exchange(pool, limits, path) && served == best[free] {
        return true;
    }
    failed.insert(state);
    false
}
