//! Clearing: plan, counts, both tables and all memory it must leave alone.

use swapboard_tests::baseline::clear::{self as baseline, Workspace};
use swapboard_tests::bench_pools::{pools_of_fourteen, pools_of_six, BenchPool};
use swapboard_tests::calls::{clear, Answer};
use swapboard_tests::faulty::*;
use swapboard_tests::large;
use swapboard_tests::layout::*;
use swapboard_tests::lent::Lent;
use swapboard_tests::oracle::exchange::Limits;
use swapboard_tests::oracle::plan::*;
use swapboard_tests::oracle::pool::{read, Pool};
use swapboard_tests::pools::*;
use swapboard_tests::random::Random;
use swapboard_tests::refusal::{refuse, Refusal};
use swapboard_tests::samples::*;

/// Clears with garbage in everything lent and compares all of it afterwards.
fn expect_cleared(
    random: &mut Random,
    bytes: &[u8],
    limits: Limits,
    rooms: Rooms,
    expected: &Result<Cleared, Refusal>,
) {
    let mut pool = Lent::holding(random, bytes);
    let mut exchanges = Lent::garbage(random, rooms.exchanges);
    let mut best = Lent::garbage(random, rooms.best);
    let mut plan = Lent::garbage(random, rooms.plan);
    let answer = clear(
        pool.part(),
        limits,
        exchanges.part(),
        best.part(),
        plan.part(),
    );
    let case = (bytes, limits, rooms);
    pool.expect_untouched(case);
    match expected {
        Ok(cleared) => {
            let accepted = Answer::accepted(cleared.served as u64, cleared.records as u64);
            assert_eq!(answer, accepted, "{case:?}");
            plan.expect_front(&cleared.plan, case);
            exchanges.expect_front(&cleared.exchanges, case);
            best.expect_front(&cleared.best, case);
        }
        Err(refusal) => {
            assert_eq!(answer, Answer::refused(*refusal), "{case:?}");
            exchanges.expect_untouched(case);
            best.expect_untouched(case);
            plan.expect_untouched(case);
        }
    }
}

/// In just the room needed.
fn expect_pool_cleared(random: &mut Random, pool: &Pool, limits: Limits, expected: Cleared) {
    let rooms = Rooms::needed(pool.places);
    expect_cleared(random, &bytes_of_pool(pool), limits, rooms, &Ok(expected));
}

/// Against all legal plans.
fn compare_with_all_plans(random: &mut Random, pool: &Pool, limits: Limits) {
    expect_pool_cleared(random, pool, limits, cleared(pool, limits));
}

/// Against the second methods, in just the room needed.
fn compare_with_second_methods(random: &mut Random, bytes: &[u8], limits: Limits) {
    let pool = read(bytes).unwrap();
    let rooms = Rooms::needed(pool.places);
    let expected = Ok(large::cleared(&pool, limits));
    expect_cleared(random, bytes, limits, rooms, &expected);
}

/// What the baseline leaves.
fn cleared_by_baseline(pool: &Pool, limits: Limits) -> Cleared {
    let rooms = Rooms::needed(pool.places);
    let mut exchanges = vec![0; rooms.exchanges];
    let mut best = vec![0; rooms.best];
    let mut plan = vec![0; rooms.plan];
    let (served, records) = baseline::clear(
        &bytes_of_pool(pool),
        limits.lc,
        limits.lp,
        &mut exchanges,
        &mut best,
        &mut plan,
        &mut Workspace::default(),
    )
    .expect("a faultless pool");
    plan.truncate(16 * records);
    Cleared {
        served,
        records,
        exchanges,
        best,
        plan,
    }
}

/// The plan bytes of records given as letters: `R` or `C`, and their places.
fn plan_of(records: &[(char, &[u8])]) -> Vec<u8> {
    let record = |&(kind, places): &(char, &[u8])| {
        let mut record = places.to_vec();
        record.resize(14, 255);
        let houses = usize::from(kind == 'C');
        record.extend([kind as u8, (places.len() - houses) as u8]);
        record
    };
    records.iter().flat_map(record).collect()
}

fn expect_row(bytes: &[u8], lc: u8, lp: u8, served: u64, records: &[(char, &[u8])]) {
    let random = &mut Random::new(301);
    let limits = Limits::new(lc, lp);
    let places = bytes.len() / RECORD;
    let mut exchanges = vec![1; 1 << places];
    let mut best = vec![1; 1 << places];
    let mut plan = random.bytes(16 * places);
    let answer = clear(bytes, limits, &mut exchanges, &mut best, &mut plan);
    assert_eq!(answer, Answer::accepted(served, records.len() as u64));
    assert_eq!(&plan[..16 * records.len()], plan_of(records));
    assert_eq!(u64::from(best[best.len() - 1] / 65_536), served);
    let expected = Ok(cleared(&read(bytes).unwrap(), limits));
    expect_cleared(random, bytes, limits, Rooms::needed(places), &expected);
}

#[test]
fn rows_of_the_document() {
    let a = pool_a();
    expect_row(&a, 2, 2, 4, &[('C', &[0, 1, 2]), ('R', &[3, 4])]);
    expect_row(&a, 2, 3, 4, &[('C', &[0, 1, 2]), ('R', &[3, 4])]);
    expect_row(&a, 2, 4, 4, &[('C', &[0, 1, 2, 3, 4])]);
    expect_row(&a, 2, 5, 5, &[('C', &[0, 1, 2, 3, 4, 5])]);
    expect_row(&a, 2, 0, 4, &[('R', &[1, 2]), ('R', &[3, 4])]);
    expect_row(&a, 0, 2, 2, &[('C', &[0, 1, 2])]);
    expect_row(&a, 0, 0, 0, &[]);
    expect_row(&pool_b(), 3, 0, 4, &[('R', &[0, 3]), ('R', &[1, 2])]);
    expect_row(&[], 3, 3, 0, &[]);
    for (least, served) in [(50, 1), (51, 0)] {
        let records = numbered([Record::house(0, 50), Record::member(1, 50, least, 1)]);
        let chain: [(char, &[u8]); 1] = [('C', &[0, 1])];
        let pool = bytes_of(&records);
        expect_row(&pool, 0, 1, served, &chain[..served as usize]);
    }
}

#[test]
fn every_pool_of_up_to_three_places_at_every_limit() {
    let random = &mut Random::new(302);
    for places in 0..=3 {
        for_every_pool(places, |pool| {
            for limits in limits_that_matter(places) {
                let pool = with_some_weeks(random, pool);
                compare_with_all_plans(random, &pool, limits);
            }
        });
    }
}

#[test]
fn every_pool_of_four_places() {
    let random = &mut Random::new(303);
    for_every_pool(4, |pool| {
        let limits = random_limits(random, 4);
        let pool = with_some_weeks(random, pool);
        compare_with_all_plans(random, &pool, limits);
    });
}

#[test]
fn random_pools_of_five_to_eight_places() {
    let random = &mut Random::new(304);
    for (places, pools, limits_each) in [(5, 1500, 5), (6, 600, 4), (7, 120, 3), (8, 12, 1)] {
        for _ in 0..pools {
            let pool = some_pool(random, places);
            for _ in 0..limits_each {
                let limits = random_limits(random, places);
                compare_with_all_plans(random, &pool, limits);
            }
        }
    }
}

/// Chains from few houses, or rings of two or three, mostly such that not all can be served:
/// so many plans serve most and leave out others.
fn pool_of_many_ties(random: &mut Random, places: usize) -> (Pool, Limits) {
    let chains = [(1, 0, 1), (2, 0, 1), (1, 0, 2), (2, 0, 2)];
    let rings = [(0, 2, 0), (0, 3, 0), (1, 2, 0), (2, 2, 1)];
    let sort = random.pick(&[chains, rings]);
    let (houses, lc, lp) = random.pick(&sort);
    let houses = places.min(houses);
    let percent = random.pick(&[40, 70, 100]);
    let self_percent = random.pick(&[0, 0, 0, 30]);
    let gives = random_arcs(random, places, houses, percent, self_percent);
    (pool_with(places, houses, gives), Limits::new(lc, lp))
}

/// What decided between the plans that serve most, counted so that neither is left out.
#[derive(Debug, Default)]
struct Decided {
    by_weeks: usize,
    by_bytes_behind_weeks: usize,
}

impl Decided {
    fn count(&mut self, pool: &Pool, limits: Limits) {
        let serving_most = plans_serving_most(pool, limits);
        let of_most_weeks = plans_of_most_weeks(pool, serving_most.clone());
        let weeks_left_some_out = of_most_weeks.len() < serving_most.len();
        let first = first_by_bytes(pool, serving_most);
        self.by_weeks += usize::from(!of_most_weeks.contains(&first));
        let bytes_had_a_choice = of_most_weeks.len() > 1;
        self.by_bytes_behind_weeks += usize::from(weeks_left_some_out && bytes_had_a_choice);
    }
}

/// Two pools that differ in weeks alone, each against all legal plans: "among plans serving
/// most members, the greatest sum of weeks over the served now comes first, then the records'
/// bytes".
#[test]
fn pools_of_many_ties() {
    let random = &mut Random::new(305);
    let mut decided = Decided::default();
    let mut pairs_apart = 0;
    for round in 0..1_500 {
        let (pool, limits) = pool_of_many_ties(random, 4 + round % 4);
        let pair = [0, 1].map(|_| with_some_weeks(random, &pool));
        for pool in &pair {
            compare_with_all_plans(random, pool, limits);
            decided.count(pool, limits);
        }
        let [one, other] = pair.map(|pool| cleared(&pool, limits).plan);
        pairs_apart += usize::from(one != other);
    }
    assert!(decided.by_weeks > 200, "{decided:?}");
    assert!(decided.by_bytes_behind_weeks > 200, "{decided:?}");
    assert!(pairs_apart > 150, "{pairs_apart} pairs apart");
}

/// The same against the second methods.
#[test]
fn large_pools_of_many_ties() {
    let random = &mut Random::new(329);
    let mut pairs_apart = 0;
    for (places, pools) in [(10, 40), (11, 30), (12, 20), (13, 15), (14, 15)] {
        for _ in 0..pools {
            let (pool, limits) = pool_of_many_ties(random, places);
            let pair = [0, 1].map(|_| with_some_weeks(random, &pool));
            for pool in &pair {
                compare_with_second_methods(random, &bytes_of_pool(pool), limits);
            }
            let [one, other] = pair.map(|pool| cleared_by_call(&pool, limits).plan);
            pairs_apart += usize::from(one != other);
        }
    }
    assert!(pairs_apart > 30, "{pairs_apart} pairs apart");
}

#[test]
fn second_methods_agree_with_all_plans() {
    let random = &mut Random::new(306);
    for round in 0..1_000 {
        let places = round % 7;
        let pool = some_pool(random, places);
        let limits = random_limits(random, places);
        let expected = cleared(&pool, limits);
        let second = large::cleared(&pool, limits);
        assert_eq!(second, expected, "{pool:?} {limits:?}");
        let baseline = cleared_by_baseline(&pool, limits);
        assert_eq!(baseline, expected, "{pool:?} {limits:?}");
    }
}

#[test]
fn random_pools_of_nine_to_fourteen_places() {
    let random = &mut Random::new(307);
    let sizes = [(9, 120), (10, 100), (11, 80), (12, 60), (13, 40), (14, 40)];
    for (places, pools) in sizes {
        for _ in 0..pools {
            let bytes = bytes_of_pool(&some_pool(random, places));
            let greatest = random.pick(&[3, 4, 14]);
            let limit = |random: &mut Random| random.between(0, greatest) as u8;
            let limits = Limits::new(limit(random), limit(random));
            compare_with_second_methods(random, &bytes, limits);
        }
    }
}

/// Real looking pools: few houses, few classes, limits 2 to 4.
#[test]
fn pools_of_fourteen_records() {
    let random = &mut Random::new(308);
    for _ in 0..60 {
        let houses = random.between(0, 4);
        let bytes = bytes_of(&random_records(random, 14, houses));
        let limits = Limits::new(random.between(2, 4) as u8, random.between(0, 4) as u8);
        compare_with_second_methods(random, &bytes, limits);
    }
}

#[test]
fn one_ring_and_complete_pools_of_every_size() {
    let random = &mut Random::new(309);
    for places in 1..=MOST_PLACES {
        for houses in 0..places.min(4) {
            let ring = pool_that_waits(random, houses, one_ring(places, houses));
            let all = all_arcs(places, houses, houses % 2 == 0);
            let complete = pool_that_waits(random, houses, all);
            let members = (places - houses) as u8;
            for limits in [
                Limits::new(14, 14),
                Limits::new(members, 0),
                Limits::new(members - 1, members),
                Limits::new(3, 2),
            ] {
                compare_with_second_methods(random, &bytes_of_pool(&ring), limits);
                compare_with_second_methods(random, &bytes_of_pool(&complete), limits);
            }
        }
    }
}

/// Nothing is served, and nothing stands in either table, whatever the weeks.
fn expect_nothing(random: &mut Random, houses: usize, gives: &[Vec<usize>], limits: Limits) {
    let places = gives.len();
    let nothing = Cleared {
        served: 0,
        records: 0,
        exchanges: vec![0; 1 << places],
        best: vec![0; 1 << places],
        plan: Vec::new(),
    };
    let bytes = bytes_of_pool(&pool_that_waits(random, houses, gives.to_vec()));
    expect_cleared(random, &bytes, limits, Rooms::needed(places), &Ok(nothing));
}

#[test]
fn pools_without_any_exchange() {
    let random = &mut Random::new(310);
    for places in 0..=MOST_PLACES {
        let most = Limits::new(14, 14);
        expect_nothing(random, 0, &rising_arcs(places), most);
        expect_nothing(random, 0, &vec![Vec::new(); places], most);
        for houses in [0, places / 3, places] {
            let complete = all_arcs(places, houses, true);
            expect_nothing(random, houses, &complete, Limits::new(0, 0));
            let rising = &rising_arcs(places);
            expect_nothing(random, houses, rising, Limits::new(14, 0));
        }
    }
}

/// Rings only of lengths that the limit forbids, in pools of many arcs.
#[test]
fn rings_all_too_long() {
    let random = &mut Random::new(317);
    for (number, size) in [(2, 7), (3, 4), (4, 3), (5, 2), (7, 2), (13, 1), (14, 1)] {
        for limit in 0..number as u8 {
            expect_nothing(random, 0, &layers(number, size), Limits::new(limit, 14));
        }
    }
}

/// Against the second methods and a plan written by hand, whatever the weeks: no other plan
/// serves as many members, or all plans that do serve all.
fn expect_plan(
    random: &mut Random,
    houses: usize,
    gives: &[Vec<usize>],
    limits: Limits,
    records: &[(char, &[u8])],
) {
    let pool = pool_that_waits(random, houses, gives.to_vec());
    let expected = large::cleared(&pool, limits);
    let case = (gives, limits);
    assert_eq!(expected.plan, plan_of(records), "by hand: {case:?}");
    expect_pool_cleared(random, &pool, limits, expected);
}

/// The lowest places lead everywhere and nothing leads back to them: all are left out, one
/// after the other, before the only exchange, which is among the highest.
#[test]
fn one_exchange_behind_places_left_out() {
    let random = &mut Random::new(318);
    let most = Limits::new(14, 14);
    let numbers: Vec<u8> = (0..MOST_PLACES as u8).collect();
    for places in 2..=MOST_PLACES {
        for first in [places - 2, places - 1, places / 2] {
            let mut ring = rising_arcs(places);
            ring[places - 1].push(first);
            let record = ('R', &numbers[first..places]);
            expect_plan(random, 0, &ring, most, &[record]);
        }
        for houses in 1..places {
            let mut chain = rising_arcs(places);
            chain[..houses - 1].iter_mut().for_each(Vec::clear);
            let record = ('C', &numbers[houses - 1..places]);
            expect_plan(random, houses, &chain, most, &[record]);
        }
    }
}

/// Arcs along a random ring, among places that only give to it or only take from it and
/// come round nowhere. At its very length it is the plan; one below there is none.
#[test]
fn one_ring_hidden_among_arcs_that_lead_nowhere() {
    let random = &mut Random::new(319);
    for round in 0..70 {
        let places = 1 + round % MOST_PLACES;
        let mut order: Vec<usize> = (0..places).collect();
        random.shuffle(&mut order);
        let before = random.below(places);
        let behind = random.between(before + 1, places);
        let ring = before..behind;
        let mut gives = vec![Vec::new(); places];
        for at in 0..places {
            for later in at + 1..places {
                let along = ring.contains(&at) && ring.contains(&later);
                if later == at + 1 && along || !along && random.chance(70) {
                    gives[order[at]].push(order[later]);
                }
            }
        }
        gives[order[behind - 1]].push(order[before]);
        let mut list: Vec<u8> = order[ring].iter().map(|&place| place as u8).collect();
        let lowest = (0..list.len()).min_by_key(|&at| list[at]).unwrap();
        list.rotate_left(lowest);
        let length = list.len() as u8;
        let just_enough = Limits::new(length, 14);
        expect_plan(random, 0, &gives, just_enough, &[('R', &list)]);
        expect_nothing(random, 0, &gives, Limits::new(length - 1, 14));
    }
}

/// The house gives to all. Each member gives to the next in a random order and back to all
/// before it but the first, so that one chain serves all and very many come to nothing.
#[test]
fn one_chain_hidden_among_ways_back() {
    let random = &mut Random::new(320);
    for round in 0..52 {
        let members = 1 + round % 13;
        let mut order: Vec<usize> = (1..=members).collect();
        random.shuffle(&mut order);
        let mut gives = vec![order.clone()];
        gives.resize(members + 1, Vec::new());
        for at in 0..members {
            let back = order[..at].iter().skip(1);
            gives[order[at]] = order[at + 1..]
                .iter()
                .take(1)
                .chain(back)
                .copied()
                .collect();
        }
        order.insert(0, 0);
        let chain: Vec<u8> = order.iter().map(|&place| place as u8).collect();
        let just_enough = Limits::new(0, members as u8);
        expect_plan(random, 1, &gives, just_enough, &[('C', &chain)]);
        let bytes = bytes_of_pool(&pool_that_waits(random, 1, gives));
        let one_below = Limits::new(0, members as u8 - 1);
        compare_with_second_methods(random, &bytes, one_below);
        compare_with_second_methods(random, &bytes, Limits::new(members as u8 / 2, one_below.lp));
    }
}

/// All give to all, but only the highest to the lowest: every ring of the lowest needs both.
#[test]
fn the_one_ring_that_needs_the_highest_place() {
    let random = &mut Random::new(321);
    let numbers: Vec<u8> = (0..MOST_PLACES as u8).collect();
    for places in 2..=MOST_PLACES {
        let mut gives = all_arcs(places, 0, false);
        for takers in &mut gives[1..places - 1] {
            takers.retain(|&taker| taker != 0);
        }
        let all = Limits::new(places as u8, 0);
        expect_plan(random, 0, &gives, all, &[('R', &numbers[..places])]);
        let bytes = bytes_of_pool(&pool_that_waits(random, 0, gives));
        for limit in [places as u8 - 1, 3, 2] {
            compare_with_second_methods(random, &bytes, Limits::new(limit, 0));
        }
    }
}

/// Paths that fail in one round, or in one order, and are right in another.
#[test]
fn ways_that_fail_only_at_first() {
    let arcs = |places: usize, arcs: &[(usize, usize)]| {
        let mut gives = vec![Vec::new(); places];
        for &(giver, taker) in arcs {
            gives[giver].push(taker);
        }
        gives
    };
    // 0 1 2 3 does not come back to 0; without 0 it is a ring.
    let shared = [(0, 1), (1, 2), (2, 3), (3, 1), (0, 4), (4, 0)];
    let pool = bytes_of_arcs(0, &arcs(5, &shared));
    expect_row(&pool, 3, 0, 5, &[('R', &[0, 4]), ('R', &[1, 2, 3])]);
    // The same behind a house, whose chain must leave the ring to the next round.
    let behind = [(0, 1), (1, 2), (2, 3), (3, 1), (0, 4), (4, 5), (5, 6)];
    let pool = bytes_of_arcs(1, &arcs(7, &behind));
    let records: [(char, &[u8]); 2] = [('C', &[0, 4, 5, 6]), ('R', &[1, 2, 3])];
    expect_row(&pool, 3, 3, 6, &records);
    // 2 3 is a dead end behind 0, and the way behind 1.
    let next = [(0, 2), (2, 3), (3, 1), (1, 2), (0, 4), (4, 0)];
    let pool = bytes_of_arcs(0, &arcs(5, &next));
    expect_row(&pool, 4, 0, 5, &[('R', &[0, 4]), ('R', &[1, 2, 3])]);
    // 0 1 2 ends there and 0 2 1 goes on: the same set, another last place.
    let orders = [(0, 1), (1, 2), (0, 2), (2, 1), (1, 3), (3, 0)];
    let pool = bytes_of_arcs(0, &arcs(4, &orders));
    expect_row(&pool, 4, 0, 4, &[('R', &[0, 2, 1, 3])]);
    // 3 is a dead end behind 1, where 2 is lost, and the way behind 2.
    let places = [(0, 1), (1, 3), (3, 4), (4, 0), (0, 2), (2, 1)];
    let pool = bytes_of_arcs(0, &arcs(5, &places));
    expect_row(&pool, 5, 0, 5, &[('R', &[0, 2, 1, 3, 4])]);
    // Three rounds: each ring is a way that failed in the round before.
    let rounds = [
        (0, 1),
        (1, 2),
        (2, 1),
        (2, 3),
        (3, 4),
        (4, 3),
        (0, 5),
        (5, 0),
    ];
    let pool = bytes_of_arcs(0, &arcs(6, &rounds));
    let records: [(char, &[u8]); 3] = [('R', &[0, 5]), ('R', &[1, 2]), ('R', &[3, 4])];
    expect_row(&pool, 4, 0, 6, &records);
}

/// Some members are traps: they give to traps alone. Every path of another that enters them
/// fails, at the end of all ways through them; later rounds make rings of the same paths.
fn pool_with_traps(random: &mut Random, places: usize) -> Pool {
    let houses = random.between(0, 2);
    let is_trap: Vec<bool> = (0..places).map(|_| random.chance(60)).collect();
    let mut gives = vec![Vec::new(); places];
    for giver in 0..places {
        for taker in houses..places {
            let percent = match (giver >= houses && is_trap[giver], is_trap[taker]) {
                (true, true) => 80,
                (true, false) => 0,
                (false, true) => 70,
                (false, false) => 40,
            };
            if giver != taker && random.chance(percent) {
                gives[giver].push(taker);
            }
        }
    }
    pool_that_waits(random, houses, gives)
}

#[test]
fn dead_ends_shared_by_many_paths() {
    let random = &mut Random::new(322);
    for (places, pools) in [(4, 100), (5, 200), (6, 150), (7, 25)] {
        for _ in 0..pools {
            let pool = pool_with_traps(random, places);
            let limits = Limits::new(random.between(1, 7) as u8, random.between(1, 7) as u8);
            compare_with_all_plans(random, &pool, limits);
        }
    }
    for (places, pools) in [(9, 40), (11, 40), (13, 20), (14, 30)] {
        for _ in 0..pools {
            let bytes = bytes_of_pool(&pool_with_traps(random, places));
            let limits = Limits::new(random.between(1, 14) as u8, random.between(1, 14) as u8);
            compare_with_second_methods(random, &bytes, limits);
        }
    }
}

/// The pools of the benchmark, as they are and with other limits and weeks and the members
/// numbered anew.
#[test]
fn pools_of_the_benchmark() {
    let random = &mut Random::new(323);
    for BenchPool { pool, limits, .. } in pools_of_six() {
        compare_with_all_plans(random, &pool, limits);
    }
    for BenchPool { pool, limits, .. } in pools_of_fourteen() {
        compare_with_second_methods(random, &bytes_of_pool(&pool), limits);
        let renumbered = renumbered(random, &pool);
        compare_with_second_methods(random, &bytes_of_pool(&renumbered), limits);
        let waiting = with_some_weeks(random, &renumbered);
        let other = random_limits(random, 12);
        compare_with_second_methods(random, &bytes_of_pool(&waiting), limits);
        compare_with_second_methods(random, &bytes_of_pool(&waiting), other);
    }
}

/// Complete pools: of all sets that the limits allow, and of all lists, only weeks and bytes
/// decide.
#[test]
fn complete_pools_at_every_limit() {
    let random = &mut Random::new(324);
    for places in 1..=5 {
        for houses in 0..=places.min(2) {
            let pool = pool_with(places, houses, all_arcs(places, houses, places % 2 == 0));
            for limits in limits_that_matter(places) {
                let pool = with_some_weeks(random, &pool);
                compare_with_all_plans(random, &pool, limits);
            }
        }
    }
    for houses in [0, 1, 4] {
        let pool = pool_with(14, houses, all_arcs(14, houses, houses == 1));
        for limit in 0..=14 {
            let bytes = bytes_of_pool(&with_some_weeks(random, &pool));
            compare_with_second_methods(random, &bytes, Limits::new(limit, 14 - limit));
        }
    }
}

/// Members of one sort differ in nothing but their place and their weeks; there are one to
/// three sorts.
#[test]
fn identical_members() {
    let random = &mut Random::new(325);
    for round in 0..200 {
        let places = if round < 150 { 3 + round % 4 } else { 14 };
        let houses = random.between(0, 2);
        let sorts = random.between(1, 3);
        let taken: Vec<u32> = (0..sorts).map(|_| random.between(0, 7) as u32).collect();
        let record = |place: usize| {
            let sort = random.below(sorts);
            if place < houses {
                return Record::house(sort as u8, 50);
            }
            Record::member(sort as u8, 50, 50, taken[sort])
        };
        let pool = read(&bytes_of(&numbered((0..places).map(record)))).unwrap();
        let pool = with_some_weeks(random, &pool);
        let limits = Limits::new(random.between(0, 4) as u8, random.between(0, 4) as u8);
        if places < 14 {
            compare_with_all_plans(random, &pool, limits);
        } else {
            compare_with_second_methods(random, &bytes_of_pool(&pool), limits);
        }
    }
}

/// Compares in rooms of any length, whichever cause they meet.
fn compare_in_rooms(random: &mut Random, bytes: &[u8], limits: Limits, rooms: Rooms) {
    let expected = test_clearing(bytes, limits, rooms).map(|pool| large::cleared(&pool, limits));
    expect_cleared(random, bytes, limits, rooms, &expected);
}

#[test]
fn every_length_of_the_plan_buffer() {
    let random = &mut Random::new(311);
    for places in 0..=6 {
        let bytes = bytes_of_pool(&some_pool(random, places));
        for plan in 0..=16 * places + 40 {
            let rooms = Rooms {
                plan,
                ..Rooms::needed(places)
            };
            let limits = Limits::new(3, 3);
            compare_in_rooms(random, &bytes, limits, rooms);
        }
    }
}

#[test]
fn rooms_around_the_needed_ones() {
    let random = &mut Random::new(312);
    let around = |needed: usize| {
        let one_below = needed.saturating_sub(1);
        [0, needed / 4, needed / 2, one_below, needed, needed + 7]
    };
    for places in [0, 1, 2, 3, 4, 5, 6, 8, 11] {
        let bytes = bytes_of_pool(&some_pool(random, places));
        let needed = Rooms::needed(places);
        for exchanges in around(needed.exchanges) {
            for best in around(needed.best) {
                for plan in around(needed.plan) {
                    let rooms = Rooms {
                        exchanges,
                        best,
                        plan,
                    };
                    compare_in_rooms(random, &bytes, Limits::new(3, 3), rooms);
                }
            }
        }
    }
}

#[test]
fn rooms_of_fourteen_places() {
    let random = &mut Random::new(313);
    let bytes = bytes_of_pool(&some_pool(random, 14));
    let needed = Rooms::needed(14);
    let limits = Limits::new(3, 3);
    for (short, number) in [(1, 8), (2, 9), (3, 10)] {
        let rooms = Rooms {
            exchanges: needed.exchanges - usize::from(short == 1),
            best: needed.best - usize::from(short == 2),
            plan: needed.plan - usize::from(short == 3),
        };
        expect_cleared(random, &bytes, limits, rooms, &refuse(number, 0));
    }
    let wide = Rooms {
        exchanges: 40_000,
        best: 40_000,
        plan: 1_000,
    };
    compare_in_rooms(random, &bytes, limits, wide);
}

#[test]
fn limits_up_to_fourteen_and_no_further() {
    let random = &mut Random::new(314);
    let bytes = bytes_of_pool(&some_pool(random, 5));
    let rooms = Rooms::needed(5);
    let (good, bad) = limits_around_fourteen();
    for limits in good {
        compare_in_rooms(random, &bytes, limits, rooms);
    }
    for limits in bad {
        expect_cleared(random, &bytes, limits, rooms, &refuse(7, 0));
    }
}

/// Every choice of the later causes met together, by themselves and behind each cause of
/// reading, in a house and in a member: that of reading is given, else the smallest number.
#[test]
fn order_of_causes() {
    let random = &mut Random::new(315);
    let mut pools = vec![(bytes_of(&random_records(random, 4, 1)), 0, 0)];
    for houses in [0, 3] {
        pools.extend(faulty_pools(random, 4, houses, 2));
    }
    let needed = Rooms::needed(4);
    for (bytes, number, at) in pools {
        for causes in 0..16 {
            let met = |cause: usize| causes >> cause & 1;
            let limits = Limits::new(2, 2 + 13 * met(0) as u8);
            let rooms = Rooms {
                exchanges: needed.exchanges - met(1),
                best: needed.best - met(2),
                plan: needed.plan - met(3),
            };
            let later = (0..4).find(|&cause| met(cause) == 1);
            let expected = match (number, later) {
                (0, None) => Ok(large::cleared(&read(&bytes).unwrap(), limits)),
                (0, Some(cause)) => refuse(7 + cause as u64, 0),
                _ => refuse(number, at),
            };
            expect_cleared(random, &bytes, limits, rooms, &expected);
        }
    }
}

/// With no other cause and with every later one.
fn expect_refused_record(random: &mut Random, bytes: &[u8], number: u64, at: usize) {
    let none = Rooms {
        exchanges: 0,
        best: 0,
        plan: 0,
    };
    let needed = Rooms::needed(bytes.len() / RECORD);
    let expected = refuse(number, at);
    expect_cleared(random, bytes, Limits::new(3, 3), needed, &expected);
    expect_cleared(random, bytes, Limits::new(3, 15), none, &expected);
}

#[test]
fn faults_of_every_record() {
    let random = &mut Random::new(326);
    for_every_record_at_fault(random, expect_refused_record);
}

#[test]
fn faults_of_every_two_records() {
    let random = &mut Random::new(328);
    for_every_two_records_at_fault(random, 6, expect_refused_record);
}

/// Clears by the call, to be compared with another call.
fn cleared_by_call(pool: &Pool, limits: Limits) -> Cleared {
    let rooms = Rooms::needed(pool.places);
    let mut exchanges = vec![0; rooms.exchanges];
    let mut best = vec![0; rooms.best];
    let mut plan = vec![0; rooms.plan];
    let bytes = bytes_of_pool(pool);
    let answer = clear(&bytes, limits, &mut exchanges, &mut best, &mut plan);
    assert_eq!(answer.number, 0, "{pool:?} {limits:?}");
    plan.truncate(16 * answer.second as usize);
    Cleared {
        served: answer.first as usize,
        records: answer.second as usize,
        exchanges,
        best,
        plan,
    }
}

/// Pools of every size, some of many ties, with the limits they are cleared at.
fn pools_of_every_size(random: &mut Random) -> Vec<(Pool, Limits)> {
    let mut pools = Vec::new();
    for places in 0..=MOST_PLACES {
        for _ in 0..if places < 11 { 60 } else { 15 } {
            let (tied, limits) = pool_of_many_ties(random, places);
            pools.push((with_some_weeks(random, &tied), limits));
            let limits = random_limits(random, places);
            pools.push((some_pool(random, places), limits));
        }
    }
    pools
}

/// Whatever was given as weeks to houses: "a house's weeks count nowhere".
#[test]
fn weeks_of_houses_make_no_difference() {
    let random = &mut Random::new(330);
    for (mut pool, limits) in pools_of_every_size(random) {
        let expected = cleared_by_call(&pool, limits);
        for weeks in [0, 1, GREATEST_WEEKS] {
            for house in 0..pool.houses {
                pool.weeks[house] = random.pick(&[weeks, weeks, 500]);
            }
            expect_pool_cleared(random, &pool, limits, expected.clone());
        }
    }
}

/// Weeks that are equal for all members leave the plan to the bytes, as weeks 0 do; an entry
/// holds them once for each of its members.
#[test]
fn equal_weeks_are_as_no_weeks() {
    let random = &mut Random::new(331);
    for (pool, limits) in pools_of_every_size(random) {
        let none = cleared_by_call(&with_weeks(&pool, vec![0; pool.places]), limits);
        for weeks in [1, 255, 256, GREATEST_WEEKS] {
            let more = |entry: &u32| entry + entry / 65_536 * u32::from(weeks);
            let expected = Cleared {
                best: none.best.iter().map(more).collect(),
                ..none.clone()
            };
            let equal = with_weeks(&pool, vec![weeks; pool.places]);
            expect_pool_cleared(random, &equal, limits, expected);
        }
    }
}

/// Pools that differ in machine numbers alone have the same tables and plan: numbers falling
/// with the places, and at random.
#[test]
fn machine_numbers_make_no_difference() {
    let random = &mut Random::new(327);
    for (pool, limits) in pools_of_every_size(random) {
        let rooms = Rooms::needed(pool.places);
        let expected = Ok(cleared_by_call(&pool, limits));
        let mut falling = records_of_pool(&pool);
        let mut drawn = falling.clone();
        draw_weeks_and_machines(random, &mut drawn);
        for place in 0..pool.places {
            falling[place].machine = u16::MAX - place as u16;
            drawn[place].weeks = pool.weeks[place];
        }
        for records in [falling, drawn] {
            expect_cleared(random, &bytes_of(&records), limits, rooms, &expected);
        }
    }
}

/// The pool of these arcs and weeks.
fn pool_told(houses: usize, arcs: &[(usize, usize)], weeks: &[u16]) -> Vec<u8> {
    let mut gives = vec![Vec::new(); weeks.len()];
    for &(giver, taker) in arcs {
        gives[giver].push(taker);
    }
    let pool = pool_with(weeks.len(), houses, gives);
    bytes_of_pool(&with_weeks(&pool, weeks.to_vec()))
}

/// A house and two that it could give to.
#[test]
fn the_longest_waiting_of_two() {
    for (weeks, served) in [
        ([0, 5, 6], 2),
        ([0, 6, 5], 1),
        ([0, 6, 6], 1),
        ([0, 0, 1], 2),
        ([999, 0, 1], 2),
        ([7, 1, 0], 1),
        ([0, 255, 256], 2),
        ([0, 256, 255], 1),
        ([0, 258, 513], 2),
        ([0, 513, 258], 1),
        ([0, 998, 999], 2),
    ] {
        let pool = pool_told(1, &[(0, 1), (0, 2)], &weeks);
        expect_row(&pool, 0, 1, 1, &[('C', &[0, served])]);
    }
}

/// "A house's weeks count nowhere": of two houses the lower one, whichever waited longer.
#[test]
fn houses_that_waited() {
    for weeks in [[0, 999, 3], [999, 0, 3], [0, 1, 0]] {
        let pool = pool_told(2, &[(0, 2), (1, 2)], &weeks);
        expect_row(&pool, 0, 1, 1, &[('C', &[0, 2])]);
    }
}

/// A ring of three that waited no week comes before one of two that waited longest.
#[test]
fn more_members_come_before_more_weeks() {
    let arcs = [(0, 1), (1, 0), (1, 2), (2, 3), (3, 1)];
    let pool = pool_told(0, &arcs, &[999, 999, 0, 0]);
    expect_row(&pool, 3, 0, 3, &[('R', &[1, 2, 3])]);
    expect_row(&pool, 2, 0, 2, &[('R', &[0, 1])]);
}

/// Behind one house a chain of up to six that waited longest and one of a member more that
/// waited no week: no plans have more weeks between them and members that differ.
#[test]
fn one_member_more_comes_before_any_weeks() {
    let random = &mut Random::new(333);
    for few in 1..=6 {
        let mut gives: Vec<Vec<usize>> = (1..2 * few + 2).map(|next| vec![next]).collect();
        gives[0].push(few + 1);
        gives[few].clear();
        gives.push(Vec::new());
        let mut weeks = vec![0; gives.len()];
        weeks[1..=few].fill(GREATEST_WEEKS);
        let pool = with_weeks(&pool_with(gives.len(), 1, gives), weeks);
        for (limit, first) in [(few, 1), (few + 1, few + 1), (14, few + 1)] {
            let limits = Limits::new(14, limit as u8);
            let members = (first..pool.places).take(limit.min(few + 1));
            let chain: Vec<u8> = [0].into_iter().chain(members.map(|v| v as u8)).collect();
            let expected = large::cleared(&pool, limits);
            assert_eq!(
                expected.plan,
                plan_of(&[('C', &chain)]),
                "{pool:?} {limits:?}"
            );
            expect_pool_cleared(random, &pool, limits, expected);
        }
    }
}

/// Not the greatest weeks of one member.
#[test]
fn the_sum_of_weeks_counts() {
    let arcs = [(0, 1), (1, 2), (0, 3), (3, 4)];
    let first: [(char, &[u8]); 1] = [('C', &[0, 1, 2])];
    let second: [(char, &[u8]); 1] = [('C', &[0, 3, 4])];
    for (weeks, records) in [
        ([0, 999, 0, 500, 500], second),
        ([0, 999, 0, 499, 500], first),
        ([0, 500, 500, 999, 0], first),
        ([0, 0, 999, 999, 1], second),
        ([0, 999, 999, 999, 998], first),
        ([0, 998, 999, 999, 999], second),
    ] {
        expect_row(&pool_told(1, &arcs, &weeks), 0, 2, 2, &records);
    }
}

/// The first chain gives up the member that waited longest, whom the second can serve too.
#[test]
fn weeks_of_the_whole_plan_count() {
    let arcs = [(0, 2), (0, 3), (1, 2), (1, 4)];
    let pool = pool_told(2, &arcs, &[0, 0, 10, 9, 1]);
    expect_row(&pool, 0, 1, 2, &[('C', &[0, 3]), ('C', &[1, 2])]);
    let pool = pool_told(2, &arcs, &[0, 0, 10, 1, 9]);
    expect_row(&pool, 0, 1, 2, &[('C', &[0, 2]), ('C', &[1, 4])]);
}

/// A chain of twelve leaves out the one of thirteen that waited least, whose weeks are one
/// below those of all others, so that 11,988 weeks are served and not 11,987.
#[test]
fn the_one_that_waited_least_is_left_out() {
    let random = &mut Random::new(332);
    let complete = pool_with(MOST_PLACES, 1, all_arcs(MOST_PLACES, 1, false));
    for out in 1..MOST_PLACES {
        let mut weeks = vec![GREATEST_WEEKS; MOST_PLACES];
        weeks[out] -= 1;
        let pool = with_weeks(&complete, weeks);
        let limits = Limits::new(0, 12);
        let expected = large::cleared(&pool, limits);
        let served: Vec<u8> = (0..14).filter(|&place| usize::from(place) != out).collect();
        assert_eq!(expected.plan, plan_of(&[('C', &served)]));
        assert_eq!(expected.best[expected.best.len() - 1], 12 * 65_536 + 11_988);
        expect_pool_cleared(random, &pool, limits, expected);
    }
}

#[test]
fn damaged_pools() {
    let random = &mut Random::new(316);
    for _ in 0..3_000 {
        let places = random.between(1, 5);
        let mut bytes = random_pool(random, places);
        damage(random, &mut bytes);
        let limits = random_limits(random, places);
        compare_in_rooms(random, &bytes, limits, Rooms::needed(places));
        let bytes = pool_of_two_faults(random, places);
        compare_in_rooms(random, &bytes, limits, Rooms::needed(places));
    }
}
