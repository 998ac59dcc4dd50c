//! Legal plans, their record form, and clearing: all legal plans are tried.

use super::best::{self, disjoint, test_best_room};
use super::exchange::{self, is_chain, is_exchange, test_exchange_room, Limits};
use super::pool::{read, Pool};
use crate::pools::PoolValue;
use crate::refusal::{refuse, Refusal};
use std::slice::from_ref;

/// Each exchange as its list of places.
pub type Plan = Vec<Vec<usize>>;

/// Every exchange of the pool once: "where a ring's list begins makes no
/// difference", so only lists of rings beginning at their lowest place.
pub fn all_exchanges(pool: &Pool, limits: Limits) -> Plan {
    let mut exchanges = Vec::new();
    for_each_list(pool.places, &mut Vec::new(), &mut |list| {
        let once = is_chain(pool, limits, list) || list.iter().min() == list.first();
        if once && is_exchange(pool, limits, list) {
            exchanges.push(list.to_vec());
        }
    });
    exchanges
}

/// Visits every list of different places.
fn for_each_list(places: usize, list: &mut Vec<usize>, visit: &mut impl FnMut(&[usize])) {
    visit(list);
    for place in 0..places {
        if !list.contains(&place) {
            list.push(place);
            for_each_list(places, list, visit);
            list.pop();
        }
    }
}

/// "A legal plan is a set of exchanges, perhaps none, no two with a place in common."
pub fn legal_plans(pool: &Pool, limits: Limits) -> Vec<Plan> {
    let mut plans = vec![Plan::new()];
    for exchange in all_exchanges(pool, limits) {
        let apart = |plan: &&Plan| plan.iter().all(|other| disjoint(other, &exchange));
        let with_it = |plan: &Plan| [&plan[..], from_ref(&exchange)].concat();
        let larger: Vec<Plan> = plans.iter().filter(apart).map(with_it).collect();
        plans.extend(larger);
    }
    plans
}

/// "It serves the members in it."
pub fn served(pool: &Pool, plan: &Plan) -> usize {
    plan.iter().map(|exchange| pool.members_in(exchange)).sum()
}

/// "Bytes 0 to 13 the places in order, filled up with 255; byte 14 the kind, 82
/// ring or 67 chain; byte 15 the members served."
pub fn record(pool: &Pool, exchange: &[usize]) -> [u8; 16] {
    let mut record = [255; 16];
    for (byte, &place) in record.iter_mut().zip(exchange) {
        *byte = place as u8;
    }
    record[14] = if pool.is_house(exchange[0]) { 67 } else { 82 };
    record[15] = pool.members_in(exchange) as u8;
    record
}

/// "Record k of lent plan bytes, or an empty part when fewer than k + 1 whole
/// records stand there."
pub fn record_part(plan: &[u8], k: u64) -> &[u8] {
    let records = (plan.len() / 16) as u128;
    if records < u128::from(k) + 1 {
        return &[];
    }
    &plan[16 * k as usize..][..16]
}

/// "A ring begins at its lowest place. Records stand in rising order of first place."
pub fn record_form(pool: &Pool, plan: &Plan) -> Vec<u8> {
    let mut plan = plan.clone();
    plan.sort_by_key(|exchange| exchange[0]);
    plan.iter()
        .flat_map(|exchange| record(pool, exchange))
        .collect()
}

/// "Weeks over the served": of the members in the plan, for "a house's weeks count nowhere".
pub fn weeks_served(pool: &Pool, plan: &Plan) -> usize {
    let places = plan.iter().flatten();
    let members = places.filter(|&&place| pool.is_member(place));
    members.map(|&member| usize::from(pool.weeks[member])).sum()
}

pub fn plans_serving_most(pool: &Pool, limits: Limits) -> Vec<Plan> {
    of_greatest(legal_plans(pool, limits), |plan| served(pool, plan))
}

pub fn plans_of_most_weeks(pool: &Pool, plans: Vec<Plan>) -> Vec<Plan> {
    of_greatest(plans, |plan| weeks_served(pool, plan))
}

/// The plans for which this number is greatest.
fn of_greatest(mut plans: Vec<Plan>, number: impl Fn(&Plan) -> usize) -> Vec<Plan> {
    let greatest = plans.iter().map(&number).max();
    plans.retain(|plan| Some(number(plan)) == greatest);
    plans
}

/// "The one whose bytes come first: at the first differing byte, the smaller."
pub fn first_by_bytes(pool: &Pool, plans: Vec<Plan>) -> Plan {
    let first = plans.into_iter().min_by_key(|plan| record_form(pool, plan));
    first.unwrap_or_default()
}

/// "Among plans serving most members, the greatest sum of weeks over the served now comes
/// first, then the records' bytes."
fn answer(pool: &Pool, limits: Limits) -> Plan {
    let serving_most = plans_serving_most(pool, limits);
    let of_most_weeks = plans_of_most_weeks(pool, serving_most);
    first_by_bytes(pool, of_most_weeks)
}

/// What an accepted clearing returns and leaves at the front of each buffer.
#[derive(Clone, Debug, PartialEq, Eq)]
pub struct Cleared {
    pub served: usize,
    pub records: usize,
    pub exchanges: Vec<u16>,
    pub best: Vec<u32>,
    pub plan: Vec<u8>,
}

impl Cleared {
    pub fn new(pool: &Pool, plan: &Plan, exchanges: Vec<u16>, best: Vec<u32>) -> Self {
        Cleared {
            served: served(pool, plan),
            records: plan.len(),
            exchanges,
            best,
            plan: record_form(pool, plan),
        }
    }
}

/// "Afterwards both tables hold their meaning, the plan stands at the front of
/// the plan buffer."
pub fn cleared(pool: &Pool, limits: Limits) -> Cleared {
    let exchanges = exchange::table(pool, limits);
    let best = best::table(pool, &exchanges);
    Cleared::new(pool, &answer(pool, limits), exchanges, best)
}

/// Lengths of what is lent to clearing beside the pool.
#[derive(Clone, Copy, Debug)]
pub struct Rooms {
    pub exchanges: usize,
    pub best: usize,
    pub plan: usize,
}

impl Rooms {
    /// Just the room a pool of so many places needs.
    pub fn needed(places: usize) -> Self {
        Rooms {
            exchanges: 1 << places,
            best: 1 << places,
            plan: 16 * places,
        }
    }
}

/// Clearing a pool value with enough room: the causes 6 and 7, else what it leaves,
/// by a method of clearing.
pub fn clear_value(
    value: &PoolValue,
    limits: Limits,
    cleared: impl Fn(&Pool, Limits) -> Cleared,
) -> Result<Cleared, Refusal> {
    let pool = Pool::of_value(value)?;
    limits.test()?;
    Ok(cleared(&pool, limits))
}

/// The causes clearing tests: those of reading, then 7, 8, 9 and 10.
pub fn test_clearing(bytes: &[u8], limits: Limits, rooms: Rooms) -> Result<Pool, Refusal> {
    let pool = read(bytes)?;
    limits.test()?;
    test_exchange_room(&pool, rooms.exchanges)?;
    test_best_room(&pool, rooms.best)?;
    if rooms.plan < 16 * pool.places {
        return refuse(10, 0);
    }
    Ok(pool)
}
