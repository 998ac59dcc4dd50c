//! Checking plans: legal ones, near misses of every number, and any bytes.

use std::collections::BTreeMap;
use swapboard_tests::calls::{self, Answer};
use swapboard_tests::faulty::*;
use swapboard_tests::layout::*;
use swapboard_tests::lent::Lent;
use swapboard_tests::misses::{misses_at, Miss};
use swapboard_tests::oracle::check::check;
use swapboard_tests::oracle::exchange::Limits;
use swapboard_tests::oracle::plan::{legal_plans, record, record_form, served, Plan};
use swapboard_tests::oracle::pool::Pool;
use swapboard_tests::plans::random_legal_plan;
use swapboard_tests::pools::*;
use swapboard_tests::random::Random;
use swapboard_tests::refusal::Refusal;
use swapboard_tests::samples::*;

/// Calls with pool and plan inside garbage, neither of which may change.
fn call(random: &mut Random, pool: &[u8], limits: Limits, plan: &[u8]) -> Answer {
    let mut lent_pool = Lent::holding(random, pool);
    let mut lent_plan = Lent::holding(random, plan);
    let answer = calls::check(lent_pool.part(), limits, lent_plan.part());
    lent_pool.expect_untouched((pool, plan));
    lent_plan.expect_untouched((pool, plan));
    answer
}

fn compare(random: &mut Random, pool: &[u8], limits: Limits, plan: &[u8]) {
    let expected = match check(pool, limits, plan) {
        Ok(served) => Answer::accepted(served as u64, 0),
        Err(refusal) => Answer::refused(refusal),
    };
    let answer = call(random, pool, limits, plan);
    assert_eq!(answer, expected, "pool {pool:?} {limits:?} plan {plan:?}");
}

/// The expectation is told beforehand; the oracle must agree with it too.
fn expect_refused(
    random: &mut Random,
    pool: &[u8],
    limits: Limits,
    plan: &[u8],
    number: u64,
    at: usize,
) {
    let refusal = Refusal {
        number,
        at: at as u64,
    };
    let case = (pool, limits, plan);
    assert_eq!(check(pool, limits, plan), Err(refusal), "oracle: {case:?}");
    let answer = call(random, pool, limits, plan);
    assert_eq!(answer, Answer::refused(refusal), "{case:?}");
}

fn expect_served(random: &mut Random, pool: &[u8], limits: Limits, plan: &[u8], served: usize) {
    let case = (pool, limits, plan);
    assert_eq!(check(pool, limits, plan), Ok(served), "oracle: {case:?}");
    let answer = call(random, pool, limits, plan);
    assert_eq!(answer, Answer::accepted(served as u64, 0), "{case:?}");
}

/// A record of any list, kind and count.
fn raw_record(places: &[u8], kind: u8, count: u8) -> Vec<u8> {
    let mut record = places.to_vec();
    record.resize(14, 255);
    record.extend([kind, count]);
    record
}

fn ring(places: &[u8]) -> Vec<u8> {
    raw_record(places, 82, places.len() as u8)
}

fn chain(places: &[u8]) -> Vec<u8> {
    raw_record(places, 67, places.len() as u8 - 1)
}

#[test]
fn rows_of_the_document() {
    let random = &mut Random::new(401);
    let a = pool_a();
    let at = Limits::new;
    let plan = [chain(&[0, 1, 2]), ring(&[3, 4])].concat();
    expect_served(random, &a, at(2, 2), &plan, 4);
    expect_served(random, &a, at(14, 14), &plan, 4);
    expect_refused(random, &a, at(2, 1), &plan, 16, 0);
    expect_refused(random, &a, at(1, 2), &plan, 16, 1);
    expect_refused(random, &a, at(0, 2), &plan, 16, 1);
    expect_served(random, &a, at(2, 4), &chain(&[0, 1, 2, 3, 4]), 4);
    expect_served(random, &a, at(2, 5), &chain(&[0, 1, 2, 3, 4, 5]), 5);
    let rings = [ring(&[1, 2]), ring(&[3, 4])].concat();
    expect_served(random, &a, at(2, 0), &rings, 4);
    expect_served(random, &a, at(0, 0), &[], 0);
    let b = pool_b();
    let rings = [ring(&[0, 3]), ring(&[1, 2])].concat();
    expect_served(random, &b, at(3, 0), &rings, 4);
    expect_served(random, &b, at(3, 0), &ring(&[0, 1, 2]), 3);
    expect_served(random, &[], at(3, 3), &[], 0);
}

/// Single records of pool A with a house more (places 0 and 1), told one by one.
#[test]
fn records_told_one_by_one() {
    let random = &mut Random::new(402);
    let mut house = Record::house(31, 50);
    let mut itself = Record::member(9, 50, 40, 1 << 9);
    (house.machine, itself.machine) = (71, 72);
    let pool = [&house.bytes(), &pool_a()[..], &itself.bytes()].concat();
    let at = Limits::new;
    let mut refused = |limits, record: &[u8], number| {
        expect_refused(random, &pool, limits, record, number, 0);
    };
    // Lone places: a house has no member, a member needs the arc to itself.
    refused(at(2, 2), &chain(&[0]), 16);
    refused(at(2, 0), &chain(&[1]), 16);
    refused(at(2, 2), &ring(&[0]), 16);
    refused(at(2, 2), &ring(&[2]), 15);
    refused(at(0, 2), &ring(&[2]), 15);
    refused(at(0, 2), &ring(&[7]), 16);
    // The kind is decided by the first place, never by byte 14.
    refused(at(2, 2), &ring(&[1, 2, 3]), 17);
    refused(at(0, 2), &ring(&[1, 2, 3]), 17);
    refused(at(2, 0), &chain(&[2, 3]), 17);
    refused(at(2, 2), &raw_record(&[1, 2, 3], 67, 3), 17);
    refused(at(2, 2), &raw_record(&[2, 3], 82, 1), 17);
    // A house inside a list: no arc leads to it, and in a ring it is lower too.
    refused(at(2, 2), &chain(&[0, 1]), 15);
    refused(at(2, 2), &chain(&[0, 1, 2]), 15);
    refused(at(2, 2), &chain(&[1, 0]), 14);
    refused(at(2, 2), &ring(&[2, 1]), 14);
    // A chain's last member need not give back; a ring's must.
    refused(at(5, 5), &ring(&[2, 3, 4]), 15);
    // Every earlier number comes first.
    refused(at(0, 0), &raw_record(&[2, 3, 2, 255, 8], 0, 0), 12);
    refused(at(0, 0), &raw_record(&[3, 2, 3], 0, 0), 13);
    refused(at(0, 0), &raw_record(&[3, 2], 0, 0), 14);
    refused(at(0, 0), &raw_record(&[2, 4], 0, 0), 15);
    refused(at(0, 0), &raw_record(&[2, 3], 0, 0), 16);
    refused(at(2, 0), &raw_record(&[2, 3], 0, 0), 17);
    expect_served(random, &pool, at(1, 0), &ring(&[7]), 1);
    expect_served(random, &pool, at(0, 2), &chain(&[1, 2, 3]), 2);
    expect_served(random, &pool, at(2, 0), &ring(&[2, 3]), 2);
}

/// Lists with no 255 behind them.
#[test]
fn records_of_fourteen_places() {
    let random = &mut Random::new(417);
    let all: Vec<u8> = (0..14).collect();
    for houses in [0, 1] {
        let pool = bytes_of_arcs(houses, &one_ring(14, houses));
        let (record, members) = match houses {
            0 => (ring(&all), 14),
            _ => (chain(&all), 13),
        };
        let limits = |least: u8| match houses {
            0 => Limits::new(least, 0),
            _ => Limits::new(0, least),
        };
        expect_served(random, &pool, limits(members), &record, members.into());
        expect_served(random, &pool, limits(14), &record, members.into());
        expect_refused(random, &pool, limits(members - 1), &record, 16, 0);
        let mut again = record.clone();
        again[13] = 5;
        expect_refused(random, &pool, limits(14), &again, 13, 0);
        let mut beyond = record.clone();
        beyond[13] = 14;
        expect_refused(random, &pool, limits(14), &beyond, 12, 0);
    }
}

/// Record 0's last number comes before record 1's first.
#[test]
fn the_first_record_at_fault_decides() {
    let random = &mut Random::new(403);
    let a = pool_a();
    let limits = Limits::new(2, 2);
    let bad = [
        (12, raw_record(&[255], 0, 0)),
        (14, raw_record(&[2, 1], 82, 2)),
        (15, raw_record(&[1, 3], 82, 2)),
        (16, raw_record(&[0, 1, 2, 3], 67, 3)),
        (17, raw_record(&[1, 2], 67, 2)),
    ];
    for (number, first) in &bad {
        for (_, second) in &bad {
            let plan = [&first[..], second].concat();
            expect_refused(random, &a, limits, &plan, *number, 0);
        }
    }
    let again = [ring(&[1, 2]), ring(&[1, 2]), raw_record(&[255], 0, 0)].concat();
    expect_refused(random, &a, limits, &again, 13, 1);
}

#[test]
fn plans_written_by_clearing() {
    let random = &mut Random::new(404);
    for places in 0..=MOST_PLACES {
        let pools = if places < 12 { 150 } else { 30 };
        for _ in 0..pools {
            let pool = bytes_of_pool(&some_pool(random, places));
            let limits = random_limits(random, places);
            let mut plan = random.bytes(16 * places);
            let (exchanges, best) = (&mut vec![0; 1 << places], &mut vec![0; 1 << places]);
            let answer = calls::clear(&pool, limits, exchanges, best, &mut plan);
            assert_eq!(answer.number, 0);
            plan.truncate(16 * answer.second as usize);
            expect_served(random, &pool, limits, &plan, answer.first as usize);
        }
    }
}

/// A pool with a legal plan, mostly not a best one, in rising order.
fn pool_and_plan(random: &mut Random, places: usize) -> (Pool, Limits, Plan) {
    let pool = some_pool(random, places);
    let limits = Limits::new(random.between(1, 5) as u8, random.between(0, 5) as u8);
    let plan = random_legal_plan(random, &pool, limits);
    (pool, limits, plan)
}

#[test]
fn random_legal_plans() {
    let random = &mut Random::new(405);
    let mut records = 0;
    for round in 0..6_000 {
        let (pool, limits, plan) = pool_and_plan(random, round % 15);
        let form = record_form(&pool, &plan);
        records += plan.len();
        let count = served(&pool, &plan);
        expect_served(random, &bytes_of_pool(&pool), limits, &form, count);
    }
    assert!(records > 6_000, "only {records} records");
}

#[test]
fn all_legal_plans_of_small_pools() {
    let random = &mut Random::new(406);
    for round in 0..400 {
        let pool = some_pool(random, round % 6);
        let limits = random_limits(random, pool.places);
        let bytes = bytes_of_pool(&pool);
        for plan in legal_plans(&pool, limits) {
            let count = served(&pool, &plan);
            let form = record_form(&pool, &plan);
            expect_served(random, &bytes, limits, &form, count);
        }
    }
}

/// Every number from 12 to 17 must have been missed at the first records and later ones.
#[test]
fn near_misses_of_every_number_at_every_record() {
    let random = &mut Random::new(407);
    let mut met: BTreeMap<(u64, usize), usize> = BTreeMap::new();
    for round in 0..800 {
        let (pool, limits, plan) = pool_and_plan(random, round % 15);
        let bytes = bytes_of_pool(&pool);
        for at in 0..plan.len() {
            for miss in misses_at(random, &pool, limits, &plan, at) {
                let Miss { limits, plan, .. } = &miss;
                expect_refused(random, &bytes, *limits, plan, miss.number, miss.at);
                *met.entry((miss.number, miss.at)).or_default() += 1;
            }
        }
    }
    for number in 12..=17 {
        for at in 0..4 {
            let misses = met.get(&(number, at)).copied().unwrap_or(0);
            assert!(misses >= 20, "{number} at {at}: only {misses}");
        }
    }
}

/// Two near misses in one plan, or one with bytes damaged, whichever comes first.
#[test]
fn several_faults_in_one_plan() {
    let random = &mut Random::new(408);
    for round in 0..4_000 {
        let (pool, limits, plan) = pool_and_plan(random, 2 + round % 13);
        if plan.is_empty() {
            continue;
        }
        let at = random.below(plan.len());
        let other = random.below(plan.len());
        let first = random_miss(random, &pool, limits, &plan, at);
        let second = random_miss(random, &pool, limits, &plan, other);
        let mut both = first.plan;
        let span = 16 * other..16 * other + 16;
        for (byte, other) in both[span.clone()].iter_mut().zip(&second.plan[span]) {
            if random.chance(60) {
                *byte = *other;
            }
        }
        compare(random, &bytes_of_pool(&pool), first.limits, &both);
    }
}

fn random_miss(random: &mut Random, pool: &Pool, limits: Limits, plan: &Plan, at: usize) -> Miss {
    let misses = misses_at(random, pool, limits, plan, at);
    let number = random.between(12, 17) as u64;
    let wanted: Vec<&Miss> = misses.iter().filter(|miss| miss.number == number).collect();
    if wanted.is_empty() {
        return misses[random.below(misses.len())].clone();
    }
    random.pick(&wanted).clone()
}

#[test]
fn every_value_of_every_byte_of_legal_plans() {
    let random = &mut Random::new(409);
    for round in 0..25 {
        let (pool, limits, plan) = pool_and_plan(random, 3 + round % 12);
        let form = record_form(&pool, &plan);
        let bytes = bytes_of_pool(&pool);
        for at in 0..form.len() {
            for value in 0..=255 {
                let mut altered = form.clone();
                altered[at] = value;
                compare(random, &bytes, limits, &altered);
            }
        }
    }
}

#[test]
fn every_length_of_plan() {
    let random = &mut Random::new(410);
    for places in 0..=6 {
        let pool = bytes_of_pool(&some_pool(random, places));
        for len in 0..=100 {
            let plan = random.bytes(len);
            let limits = Limits::new(3, 3);
            compare(random, &pool, limits, &plan);
            if len % 16 != 0 {
                expect_refused(random, &pool, limits, &plan, 11, 0);
                let bad_limits = Limits::new(3, 15);
                expect_refused(random, &pool, bad_limits, &plan, 7, 0);
            }
        }
    }
}

#[test]
fn records_beyond_any_legal_number() {
    let random = &mut Random::new(411);
    for records in [1, 2, 14, 15, 16, 100, 1000] {
        expect_refused(
            random,
            &[],
            Limits::new(3, 3),
            &vec![255; 16 * records],
            12,
            0,
        );
        let itself = bytes_of_arcs(0, &[vec![0]]);
        let plan = ring(&[0]).repeat(records);
        if records == 1 {
            expect_served(random, &itself, Limits::new(1, 0), &plan, 1);
        } else {
            expect_refused(random, &itself, Limits::new(1, 0), &plan, 13, 1);
        }
    }
}

#[test]
fn limits_up_to_fourteen_and_no_further() {
    let random = &mut Random::new(412);
    let (good, bad) = limits_around_fourteen();
    for limits in good {
        expect_served(random, &pool_a(), limits, &[], 0);
    }
    for limits in bad {
        for plan in [&[][..], &[255; 5], &[255; 16]] {
            expect_refused(random, &pool_a(), limits, plan, 7, 0);
        }
    }
}

#[test]
fn faults_of_the_pool_come_first() {
    let random = &mut Random::new(413);
    for _ in 0..4_000 {
        let places = random.between(1, MOST_PLACES);
        let mut pool = random_pool(random, places);
        match random.below(3) {
            0 => damage(random, &mut pool),
            1 => pool = pool_of_two_faults(random, places),
            _ => {}
        }
        if random.chance(20) {
            pool.truncate(random.below(pool.len()));
        }
        if random.chance(10) {
            pool.resize((MOST_PLACES + 1) * RECORD, MEMBER);
        }
        let len = random.pick(&[0, 7, 16, 17, 32]);
        let plan = random.bytes(len);
        let limits = Limits::new(random.between(0, 16) as u8, random.between(0, 16) as u8);
        compare(random, &pool, limits, &plan);
    }
}

/// Each cause of reading, those of a record at every record, before limits and plans that
/// meet every later number.
#[test]
fn every_fault_of_the_pool_before_every_other() {
    let random = &mut Random::new(418);
    let mut pools = Vec::new();
    for at in 0..6 {
        pools.extend(faulty_pools(random, 6, 2, at));
    }
    let chain = chain(&[0, 1, 2]);
    let plans = [
        (11, vec![255; 15]),
        (11, vec![255; 17]),
        (12, raw_record(&[255], 0, 0)),
        (13, chain.repeat(2)),
        (14, raw_record(&[2, 1], 82, 2)),
        (15, raw_record(&[1, 3], 82, 2)),
        (16, raw_record(&[0, 1, 2, 3], 67, 3)),
        (17, raw_record(&[1, 2], 67, 2)),
        (0, chain),
        (0, Vec::new()),
    ];
    for (number, plan) in &plans {
        let a = check(&pool_a(), Limits::new(2, 2), plan);
        assert_eq!(a.err().map_or(0, |refusal| refusal.number), *number);
        for (pool, number, at) in &pools {
            for limits in [Limits::new(2, 2), Limits::new(2, 15), Limits::new(255, 2)] {
                expect_refused(random, pool, limits, plan, *number, *at);
            }
        }
    }
}

/// With the empty plan, in which no later cause is met.
fn expect_refused_record(random: &mut Random, pool: &[u8], number: u64, at: usize) {
    expect_refused(random, pool, Limits::new(3, 3), &[], number, at);
}

#[test]
fn faults_of_every_record() {
    let random = &mut Random::new(420);
    for_every_record_at_fault(random, expect_refused_record);
}

#[test]
fn faults_of_every_two_records() {
    let random = &mut Random::new(421);
    for_every_two_records_at_fault(random, 6, expect_refused_record);
}

/// Pools that differ in weeks and machine numbers alone have the same legal plans.
#[test]
fn weeks_and_machine_numbers_make_no_difference() {
    let random = &mut Random::new(419);
    for round in 0..1_000 {
        let (pool, limits, plan) = pool_and_plan(random, round % (MOST_PLACES + 1));
        let form = record_form(&pool, &plan);
        let count = served(&pool, &plan);
        let mut records = records_of_arcs(pool.houses, &pool.gives);
        for _ in 0..3 {
            draw_weeks_and_machines(random, &mut records);
            let bytes = bytes_of(&records);
            expect_served(random, &bytes, limits, &form, count);
            if !plan.is_empty() {
                let at = random.below(plan.len());
                let miss = random_miss(random, &pool, limits, &plan, at);
                let Miss { limits, plan, .. } = &miss;
                expect_refused(random, &bytes, *limits, plan, miss.number, miss.at);
            }
        }
    }
}

#[test]
fn random_bytes() {
    let random = &mut Random::new(414);
    for round in 0..20_000 {
        let places = round % 15;
        let pool = bytes_of_pool(&some_pool(random, places));
        let records = random.between(0, 4);
        let plan = match round % 2 {
            0 => random.bytes(16 * records),
            _ => random_lists(random, places, records),
        };
        compare(random, &pool, Limits::new(4, 4), &plan);
    }
}

/// Records of a few low bytes, filled up, with likely kinds and counts.
fn random_lists(random: &mut Random, places: usize, records: usize) -> Vec<u8> {
    let mut plan = Vec::new();
    for _ in 0..records {
        let length = random.between(1, 4);
        let list: Vec<u8> = (0..length)
            .map(|_| random.below(places + 1) as u8)
            .collect();
        let count = random.between(length - 1, length) as u8;
        plan.extend(raw_record(&list, random.pick(&[67, 82]), count));
    }
    plan
}

/// The record forms of all legal plans with what they serve.
fn legal_forms(pool: &Pool, limits: Limits) -> BTreeMap<Vec<u8>, u64> {
    let form = |plan: &Plan| (record_form(pool, plan), served(pool, plan) as u64);
    legal_plans(pool, limits).iter().map(form).collect()
}

/// "Its yes means: legal, and in record form", without any look at the causes.
fn expect_yes_exactly_if_legal(
    pool: &[u8],
    limits: Limits,
    legal: &BTreeMap<Vec<u8>, u64>,
    plan: &[u8],
) {
    let answer = calls::check(pool, limits, plan);
    let yes = (answer.number == 0).then_some(answer.first);
    let expected = legal.get(plan).copied();
    assert_eq!(yes, expected, "pool {pool:?} {limits:?} plan {plan:?}");
}

/// A record for every list of different places, with the kind and count it would have.
fn records_of_all_lists(pool: &Pool) -> Vec<[u8; 16]> {
    let mut lists: Vec<Vec<usize>> = vec![Vec::new()];
    let mut at = 0;
    while at < lists.len() {
        for place in 0..pool.places {
            if !lists[at].contains(&place) {
                let longer = [&lists[at][..], &[place]].concat();
                lists.push(longer);
            }
        }
        at += 1;
    }
    lists[1..].iter().map(|list| record(pool, list)).collect()
}

/// Visits all plans of up to `most` of these records, in any order.
fn for_each_plan(
    records: &[[u8; 16]],
    most: usize,
    plan: &mut Vec<u8>,
    visit: &mut impl FnMut(&[u8]),
) {
    visit(plan);
    if plan.len() == 16 * most {
        return;
    }
    for record in records {
        plan.extend(record);
        for_each_plan(records, most, plan, visit);
        plan.truncate(plan.len() - 16);
    }
}

#[test]
fn yes_exactly_if_legal_for_all_lists_of_places() {
    let random = &mut Random::new(415);
    for (places, most) in [(0, 1), (1, 3), (2, 3), (3, 3)] {
        for_every_pool(places, |pool| {
            let limits = random_limits(random, places);
            let legal = legal_forms(pool, limits);
            let bytes = bytes_of_pool(pool);
            let records = records_of_all_lists(pool);
            for_each_plan(&records, most, &mut Vec::new(), &mut |plan| {
                expect_yes_exactly_if_legal(&bytes, limits, &legal, plan);
            });
        });
    }
    for _ in 0..60 {
        let pool = some_pool(random, 4);
        let limits = random_limits(random, 4);
        let legal = legal_forms(&pool, limits);
        let records = records_of_all_lists(&pool);
        let bytes = bytes_of_pool(&pool);
        for_each_plan(&records, 2, &mut Vec::new(), &mut |plan| {
            expect_yes_exactly_if_legal(&bytes, limits, &legal, plan);
        });
    }
}

#[test]
fn yes_exactly_if_legal_for_altered_bytes() {
    let random = &mut Random::new(416);
    for round in 0..120 {
        let pool = some_pool(random, 1 + round % 4);
        let limits = Limits::new(random.between(1, 4) as u8, random.between(0, 3) as u8);
        let legal = legal_forms(&pool, limits);
        let bytes = bytes_of_pool(&pool);
        for _ in 0..4 {
            let forms: Vec<&Vec<u8>> = legal.keys().collect();
            let form = random.pick(&forms);
            for at in 0..form.len() {
                for value in 0..=255 {
                    let mut altered = form.clone();
                    altered[at] = value;
                    expect_yes_exactly_if_legal(&bytes, limits, &legal, &altered);
                }
            }
            for len in 0..form.len() {
                expect_yes_exactly_if_legal(&bytes, limits, &legal, &form[..len]);
            }
        }
    }
}
