//! Pools and limits for the tests, drawn at random or one after the other.

use crate::layout::MOST_PLACES;
use crate::oracle::exchange::Limits;
use crate::oracle::pool::{read, Pool};
use crate::pools::{
    bytes_of, random_pool, random_shape, records_of_arcs, weeks_of_places, PoolValue, Record,
};
use crate::random::Random;

/// Weeks at the edges of their range and of a byte, and such beyond the range; some of
/// these would be in it with their bytes exchanged.
pub const GOOD_WEEKS: [u16; 9] = [0, 1, 254, 255, 256, 257, 768, 998, 999];
pub const BAD_WEEKS: [u16; 10] = [
    1_000, 1_001, 1_023, 1_024, 1_025, 2_000, 32_768, 59_139, 65_280, 65_535,
];
/// Pool values that have one arc more than a good one and are refused by 6: "arc into a house
/// or from or to a place that isn't there".
pub fn values_of_arcs_astray(good: &PoolValue) -> Vec<PoolValue> {
    let (places, houses) = (usize::from(good.places), usize::from(good.houses));
    let mut values = Vec::new();
    for giver in 0..MOST_PLACES {
        for taker in 0..16 {
            if giver < places && (houses..places).contains(&taker) {
                continue;
            }
            let mut value = *good;
            value.gives[giver] |= 1 << taker;
            values.push(value);
        }
    }
    values
}

/// Pool values that differ from a good one in weeks alone, and are refused by 6: "weeks above
/// 999" at each place, houses too, "or other than 0 for a place that isn't there".
pub fn values_of_bad_weeks(good: &PoolValue) -> Vec<PoolValue> {
    let mut values = Vec::new();
    for place in 0..MOST_PLACES {
        let there = place < usize::from(good.places);
        let absent_weeks = GOOD_WEEKS.iter().filter(|&&weeks| weeks != 0 && !there);
        for &weeks in BAD_WEEKS.iter().chain(absent_weeks) {
            let mut value = *good;
            value.weeks[place] = weeks;
            values.push(value);
        }
    }
    values
}

/// Pool values that differ from a good one in the weeks of one place, a house or a member,
/// and are good.
pub fn values_of_good_weeks(good: &PoolValue) -> Vec<PoolValue> {
    let mut values = Vec::new();
    for place in 0..usize::from(good.places) {
        for weeks in GOOD_WEEKS {
            let mut value = *good;
            value.weeks[place] = weeks;
            values.push(value);
        }
    }
    values
}

/// Machine numbers at the edges, those of a byte that is 0 and those above all weeks too.
pub const GOOD_MACHINES: [u16; 10] = [1, 2, 255, 256, 257, 1_000, 1_024, 32_768, 65_280, 65_535];

/// Records that have the arcs and the weeks of a pool value.
pub fn records_of_pool(pool: &Pool) -> Vec<Record> {
    let mut records = records_of_arcs(pool.houses, &pool.gives);
    for (record, &weeks) in records.iter_mut().zip(&pool.weeks) {
        record.weeks = weeks;
    }
    records
}

pub fn bytes_of_pool(pool: &Pool) -> Vec<u8> {
    bytes_of(&records_of_pool(pool))
}

/// A pool of weeks 0.
pub fn pool_with(places: usize, houses: usize, gives: Vec<Vec<usize>>) -> Pool {
    Pool {
        places,
        houses,
        gives,
        weeks: vec![0; places],
    }
}

/// A pool without arcs: for the best table, which rests on marks alone.
pub fn nobody_gives(places: usize, houses: usize) -> Pool {
    pool_with(places, houses, vec![Vec::new(); places])
}

/// The same pool with these weeks.
pub fn with_weeks(pool: &Pool, weeks: Vec<u16>) -> Pool {
    Pool {
        weeks,
        ..pool.clone()
    }
}

/// The same pool with weeks of any sort.
pub fn with_some_weeks(random: &mut Random, pool: &Pool) -> Pool {
    with_weeks(pool, weeks_of_places(random, pool.places))
}

/// A pool of these arcs with weeks of any sort.
pub fn pool_that_waits(random: &mut Random, houses: usize, gives: Vec<Vec<usize>>) -> Pool {
    let pool = pool_with(gives.len(), houses, gives);
    with_some_weeks(random, &pool)
}

/// The same pool with its members in another order.
pub fn renumbered(random: &mut Random, pool: &Pool) -> Pool {
    let mut number: Vec<usize> = (0..pool.places).collect();
    random.shuffle(&mut number[pool.houses..]);
    let mut other = pool.clone();
    for (giver, takers) in pool.gives.iter().enumerate() {
        let takers = takers.iter().map(|&taker| number[taker]);
        other.gives[number[giver]] = takers.collect();
        other.gives[number[giver]].sort();
        other.weeks[number[giver]] = pool.weeks[giver];
    }
    other
}

fn shaped_pool(random: &mut Random, places: usize) -> Pool {
    let houses = random.between(0, places.min(4));
    let gives = random_shape(random, places, houses);
    pool_that_waits(random, houses, gives)
}

/// Half of them by wanted arcs, half by random record fields.
pub fn some_pool(random: &mut Random, places: usize) -> Pool {
    if random.chance(50) {
        return shaped_pool(random, places);
    }
    read(&random_pool(random, places)).unwrap()
}

/// The arcs into members whose bit is set in `number`.
fn numbered_arcs(places: usize, houses: usize, number: usize) -> Vec<Vec<usize>> {
    let members = places - houses;
    let bit = |giver: usize, taker: usize| giver * members + taker - houses;
    let takers = |giver: usize| {
        let all = houses..places;
        all.filter(|&taker| number >> bit(giver, taker) & 1 == 1)
            .collect()
    };
    (0..places).map(takers).collect()
}

/// Each of these as limit for rings with each as limit for chains.
fn pairs_of(each: &[u8]) -> Vec<Limits> {
    let pairs = each
        .iter()
        .flat_map(|&lc| each.iter().map(move |&lp| Limits::new(lc, lp)));
    pairs.collect()
}

/// 0 up to one more than the places, and the greatest.
pub fn limits_that_matter(places: usize) -> Vec<Limits> {
    let each: Vec<u8> = (0..=places.min(12) as u8 + 1).chain([14]).collect();
    pairs_of(&each)
}

/// All that no call refuses.
pub fn all_limits() -> Vec<Limits> {
    let each: Vec<u8> = (0..=14).collect();
    pairs_of(&each)
}

/// Limits up to fourteen, and limits of which one or both are beyond.
pub fn limits_around_fourteen() -> (Vec<Limits>, Vec<Limits>) {
    let pairs = pairs_of(&[0, 1, 2, 3, 4, 5, 13, 14, 15, 16, 127, 128, 254, 255]);
    let up_to = |limits: &Limits| limits.lc <= 14 && limits.lp <= 14;
    pairs.into_iter().partition(up_to)
}

pub fn random_limits(random: &mut Random, places: usize) -> Limits {
    random.pick(&limits_that_matter(places))
}

/// Visits every pool of so many places, one for each number of houses and set of arcs.
pub fn for_every_pool(places: usize, mut visit: impl FnMut(&Pool)) {
    for houses in 0..=places {
        for number in 0..1 << (places * (places - houses)) {
            let gives = numbered_arcs(places, houses, number);
            visit(&pool_with(places, houses, gives));
        }
    }
}
