//! Generators of legal plans, mostly not best, for pools of every size.

use crate::oracle::exchange::{is_exchange, Limits};
use crate::oracle::plan::Plan;
use crate::oracle::pool::Pool;
use crate::random::Random;

/// Random walks from random places; each that makes an exchange joins the plan.
pub fn random_legal_plan(random: &mut Random, pool: &Pool, limits: Limits) -> Plan {
    let mut free: Vec<usize> = (0..pool.places).collect();
    let mut plan = Plan::new();
    for _ in 0..2 * pool.places {
        if free.is_empty() {
            break;
        }
        let first = random.pick(&free);
        if let Some(exchange) = random_exchange(random, pool, limits, &free, first) {
            free.retain(|place| !exchange.contains(place));
            plan.push(exchange);
        }
    }
    plan.sort();
    plan
}

/// The longest or a shorter exchange along one random walk; rings keep above
/// their first place.
fn random_exchange(
    random: &mut Random,
    pool: &Pool,
    limits: Limits,
    free: &[usize],
    first: usize,
) -> Option<Vec<usize>> {
    let mut walk = vec![first];
    let mut found = None;
    loop {
        if is_exchange(pool, limits, &walk) && (found.is_none() || random.chance(70)) {
            found = Some(walk.clone());
        }
        let takers = pool.gives[walk[walk.len() - 1]].iter().copied();
        let open = |&v: &usize| v > first && free.contains(&v) && !walk.contains(&v);
        let next: Vec<usize> = takers.filter(open).collect();
        if next.is_empty() {
            return found;
        }
        walk.push(random.pick(&next));
    }
}
