//! Filling the exchange table and the best table.

use swapboard_tests::baseline::{plain, tables as baseline};
use swapboard_tests::bench_pools::{pools_of_fourteen, BenchPool};
use swapboard_tests::calls::{fill_best, fill_exchanges, Answer};
use swapboard_tests::filling::{expect_best, expect_exchanges, filled_best};
use swapboard_tests::large::{best_by_lowest_place, entry_by_search, exchanges_by_paths};
use swapboard_tests::layout::{GREATEST_WEEKS, MOST_PLACES};
use swapboard_tests::lent::Lent;
use swapboard_tests::marks::*;
use swapboard_tests::oracle::exchange::Limits;
use swapboard_tests::oracle::held::Held;
use swapboard_tests::oracle::pool::{places_of, read, set_number, Pool};
use swapboard_tests::oracle::tried::parts_tried;
use swapboard_tests::oracle::{best, exchange};
use swapboard_tests::pools::*;
use swapboard_tests::random::Random;
use swapboard_tests::refusal::{refuse, Refusal};
use swapboard_tests::samples::*;

fn compare_exchanges(random: &mut Random, value: &PoolValue, limits: Limits, room: usize) {
    let expected = exchange::fill(value, limits, room);
    expect_exchanges(random, value, limits, room, &expected);
}

fn compare_best(random: &mut Random, value: &PoolValue, exchanges: &[u16], room: usize) {
    let expected = best::fill(value, exchanges, room);
    expect_best(random, value, exchanges, room, &expected);
}

/// Both tables against the brute force, with just the room needed.
fn compare_tables(random: &mut Random, pool: &Pool, limits: Limits) {
    let room = 1 << pool.places;
    let value = pool.value();
    let exchanges = exchange::table(pool, limits);
    compare_best(random, &value, &exchanges, room);
    expect_exchanges(random, &value, limits, room, &Ok(exchanges));
}

fn full_entries(pool: &Pool) -> usize {
    1 << pool.places
}

/// "Best in 01's rows stays the members alone": "members × 65,536 + weeks", of weeks 0.
fn members_alone(entry: u32) -> u32 {
    assert_eq!(entry % 65_536, 0);
    entry / 65_536
}

#[test]
fn rows_of_the_document() {
    let random = &mut Random::new(201);
    let a = read(&pool_a()).unwrap();
    let b = read(&pool_b()).unwrap();
    let filled = |pool: &Pool, lc, lp| {
        let mut exchanges = vec![7; full_entries(pool)];
        let mut best = vec![7; full_entries(pool)];
        let value = pool.value();
        fill_exchanges(&value, Limits::new(lc, lp), &mut exchanges);
        fill_best(&value, &exchanges, &mut best);
        (exchanges, members_alone(best[full_entries(pool) - 1]))
    };
    let (entries, served) = filled(&a, 2, 2);
    let facts = [3, 6, 7, 15, 1].map(|set| entries[set]);
    assert_eq!((facts, served), ([2, 4, 4, 0, 0], 4));
    let (entries, served) = filled(&a, 2, 3);
    assert_eq!((entries[15], served), (8, 4));
    for (lc, lp, served) in [(2, 4, 4), (2, 5, 5), (2, 0, 4), (0, 2, 2), (0, 0, 0)] {
        assert_eq!(filled(&a, lc, lp).1, served, "A at {lc}, {lp}");
    }
    let (entries, served) = filled(&b, 3, 0);
    assert_eq!((entries[3], entries[7], served), (0, 4, 4));
    let (entries, served) = filled(&read(&[]).unwrap(), 3, 3);
    assert_eq!((entries, served), (vec![0], 0));
    for limits in limits_that_matter(6) {
        compare_tables(random, &a, limits);
        compare_tables(random, &b, limits);
    }
}

#[test]
fn every_pool_of_up_to_three_places_at_every_limit() {
    let random = &mut Random::new(202);
    for places in 0..=3 {
        for_every_pool(places, |pool| {
            for limits in limits_that_matter(places) {
                let pool = with_some_weeks(random, pool);
                compare_tables(random, &pool, limits);
            }
        });
    }
}

#[test]
fn every_pool_of_four_places() {
    let random = &mut Random::new(203);
    for_every_pool(4, |pool| {
        for _ in 0..2 {
            let limits = random_limits(random, 4);
            let pool = with_some_weeks(random, pool);
            compare_tables(random, &pool, limits);
        }
    });
}

#[test]
fn random_pools_of_five_to_seven_places() {
    let random = &mut Random::new(204);
    for (places, pools, limits_each) in [(5, 2000, 12), (6, 1000, 8), (7, 500, 6)] {
        for _ in 0..pools {
            let pool = some_pool(random, places);
            for _ in 0..limits_each {
                let limits = random_limits(random, places);
                compare_tables(random, &pool, limits);
            }
        }
    }
}

#[test]
fn some_pools_of_eight_and_nine_places() {
    let random = &mut Random::new(205);
    for (places, pools) in [(8, 150), (9, 40)] {
        for _ in 0..pools {
            let pool = some_pool(random, places);
            let limits = random_limits(random, places);
            let expected = Ok(exchange::table(&pool, limits));
            let room = full_entries(&pool);
            expect_exchanges(random, &pool.value(), limits, room, &expected);
        }
    }
}

/// The longest exchanges there are, just within the limits and just beyond them.
#[test]
fn one_ring_through_all_members() {
    let random = &mut Random::new(206);
    for places in 1..=MOST_PLACES {
        for houses in 0..places.min(3) {
            let pool = pool_with(places, houses, one_ring(places, houses));
            for limits in [Limits::new(14, 14), Limits::new(places as u8 - 1, 3)] {
                let expected = Ok(exchanges_by_paths(&pool, limits));
                let room = full_entries(&pool);
                expect_exchanges(random, &pool.value(), limits, room, &expected);
            }
        }
    }
}

#[test]
fn fourteen_places_by_growing_paths() {
    let random = &mut Random::new(207);
    for round in 0..100 {
        let houses = random.between(0, 5);
        let sparse = round % 2 == 0;
        let percent = random.pick(if sparse { &[5, 10, 14] } else { &[40, 70, 100] });
        let gives = random_arcs(random, 14, houses, percent, 50);
        let longest = if sparse { 14 } else { 3 };
        let limit = |random: &mut Random| random.between(0, longest) as u8;
        let limits = Limits::new(limit(random), limit(random));
        let pool = pool_with(14, houses, gives);
        let expected = Ok(exchanges_by_paths(&pool, limits));
        expect_exchanges(random, &pool.value(), limits, 1 << 14, &expected);
    }
}

/// With all arcs there, a set of members within Lc can end anywhere but at its
/// lowest place, and a house with members within Lp anywhere in them.
#[test]
fn complete_pools_of_every_size() {
    let random = &mut Random::new(208);
    for places in 0..=MOST_PLACES {
        for houses in [0, 1, 3, places].map(|houses| houses.min(places)) {
            let pool = pool_with(places, houses, all_arcs(places, houses, true));
            let limit = |random: &mut Random| random.pick(&[0, 1, 2, 5, 8, 13, 14, 14]);
            let limits = Limits::new(limit(random), limit(random));
            let entry = |set: usize| {
                let list = places_of(set);
                let members = pool.members_in(&list);
                let longest = usize::from(match list.first() {
                    Some(&first) if pool.is_house(first) => limits.lp,
                    _ => limits.lc,
                });
                let one_house_at_most = list.len() <= members + 1;
                if members == 0 || members > longest || !one_house_at_most {
                    return 0;
                }
                set_number(&list[usize::from(list.len() > 1)..]) as u16
            };
            let expected = Ok((0..1 << places).map(entry).collect());
            expect_exchanges(random, &pool.value(), limits, 1 << places, &expected);
        }
    }
}

#[test]
fn samples_of_dense_pools_of_fourteen_places() {
    let random = &mut Random::new(209);
    for percent in [35, 50, 50, 70, 90] {
        let houses = random.between(0, 3);
        let gives = random_arcs(random, 14, houses, percent, 30);
        let pool = pool_with(14, houses, gives);
        for limits in [Limits::new(14, 14), Limits::new(9, 11)] {
            let mut table = vec![0; 1 << 14];
            fill_exchanges(&pool.value(), limits, &mut table);
            for set in sample_of_sets(random, &pool) {
                let expected = entry_by_search(&pool, limits, &places_of(set));
                assert_eq!(table[set], expected, "{pool:?} {limits:?} set {set}");
            }
        }
    }
}

/// The largest sets that can be exchanges, and random ones.
fn sample_of_sets(random: &mut Random, pool: &Pool) -> Vec<usize> {
    let all = full_entries(pool) - 1;
    let members = all >> pool.houses << pool.houses;
    let mut sets = vec![all, members];
    sets.extend((0..pool.houses).map(|house| members | 1 << house));
    sets.extend((0..300).map(|_| random.below(full_entries(pool))));
    sets
}

/// The second methods used for large pools against the brute force itself.
#[test]
fn second_methods_agree_with_the_brute_force() {
    let random = &mut Random::new(210);
    for round in 0..200 {
        let places = round % 7;
        let pool = some_pool(random, places);
        let limits = random_limits(random, places);
        let table = exchange::table(&pool, limits);
        assert_eq!(exchanges_by_paths(&pool, limits), table, "{pool:?}");
        for (set, &entry) in table.iter().enumerate() {
            let found = entry_by_search(&pool, limits, &places_of(set));
            assert_eq!(found, entry, "{pool:?} {limits:?} set {set}");
        }
        assert_eq!(exchanges_by_baseline(&pool, limits), table, "{pool:?}");
        let marks = random_marks(random, 1 << places);
        let table = best::table(&pool, &marks);
        assert_eq!(best_by_lowest_place(&pool, &marks), table, "{pool:?}");
        compare_baselines(&pool, &marks, table);
    }
}

/// Its entries by the second method, the parts tried by the walk.
#[test]
fn best_tables_of_the_baselines() {
    let random = &mut Random::new(236);
    for places in 7..=MOST_PLACES {
        for _ in 0..if places < 12 { 10 } else { 2 } {
            let pool = some_pool(random, places);
            let marks = random_marks(random, 1 << places);
            compare_baselines(&pool, &marks, best_by_lowest_place(&pool, &marks));
        }
    }
}

fn exchanges_by_baseline(pool: &Pool, limits: Limits) -> Vec<u16> {
    let mut table = vec![0; full_entries(pool)];
    let filled = baseline::fill_exchanges(&pool.value(), limits.lc, limits.lp, &mut table);
    assert_eq!(filled, Ok(table.len()));
    table
}

/// The tuned one and the plain one. What stands in the tables before makes no difference.
fn compare_baselines(pool: &Pool, marks: &[u16], entries: Vec<u32>) {
    let tried = parts_tried(pool, marks, &entries);
    for fill_best in [baseline::fill_best, plain::fill_best] {
        let mut worth = vec![u32::MAX; entries.len()];
        let mut table = vec![u32::MAX; entries.len()];
        let filled = fill_best(&pool.value(), marks, &mut worth, &mut table);
        assert_eq!(filled, Ok((table.len(), tried)), "{pool:?} {marks:?}");
        assert_eq!(table, entries, "{pool:?} {marks:?}");
    }
}

/// Room for the entries and some more.
fn wide_room(random: &mut Random, pool: &Pool) -> usize {
    full_entries(pool) + random.between(1, 40)
}

fn compare_with_baseline(random: &mut Random, pool: &Pool, limits: Limits) {
    let room = wide_room(random, pool);
    let expected = Ok(exchanges_by_baseline(pool, limits));
    expect_exchanges(random, &pool.value(), limits, room, &expected);
}

/// Pools of few, of many and of all arcs, with houses and without.
fn pools_of_all_densities(random: &mut Random, places: usize) -> Vec<Pool> {
    let mut pools = Vec::new();
    for percent in [25, 60, 100] {
        let houses = random.between(0, places.min(3));
        let gives = random_arcs(random, places, houses, percent, 50);
        pools.push(pool_with(places, houses, gives));
    }
    pools
}

#[test]
fn every_limit_up_to_seven_places() {
    let random = &mut Random::new(224);
    for places in 0..=7 {
        for pool in pools_of_all_densities(random, places) {
            for limits in all_limits() {
                let room = wide_room(random, &pool);
                compare_exchanges(random, &pool.value(), limits, room);
            }
        }
    }
}

#[test]
fn every_limit_at_fourteen_places() {
    let random = &mut Random::new(225);
    for pool in pools_of_all_densities(random, 14) {
        for limits in all_limits() {
            compare_with_baseline(random, &pool, limits);
        }
    }
}

#[test]
fn dense_pools_of_every_size() {
    let random = &mut Random::new(226);
    for places in 8..=MOST_PLACES {
        for _ in 0..20 {
            for pool in pools_of_all_densities(random, places) {
                let limits = random.pick(&all_limits());
                compare_with_baseline(random, &pool, limits);
            }
        }
    }
}

/// One ring of all places: the set of all is an exchange just where the limit allows it,
/// and no other set is.
#[test]
fn the_one_set_of_a_shuffled_ring() {
    let random = &mut Random::new(227);
    for places in 1..=MOST_PLACES {
        let ring = pool_with(places, 0, one_ring(places, 0));
        for _ in 0..4 {
            let pool = renumbered(random, &ring);
            let all = full_entries(&pool) - 1;
            let last = (0..places).find(|&giver| pool.has_arc(giver, 0)).unwrap();
            let mut expected = vec![0; full_entries(&pool)];
            let room = wide_room(random, &pool);
            let below = Limits::new(places as u8 - 1, 14);
            expect_exchanges(random, &pool.value(), below, room, &Ok(expected.clone()));
            expected[all] = 1 << last;
            let just_enough = Limits::new(places as u8, 0);
            expect_exchanges(random, &pool.value(), just_enough, room, &Ok(expected));
        }
    }
}

#[test]
fn pools_of_the_benchmark() {
    let random = &mut Random::new(228);
    for BenchPool { pool, limits, .. } in pools_of_fourteen() {
        let value = pool.value();
        let exchanges = exchanges_by_paths(&pool, limits);
        let best = Ok(best_by_lowest_place(&pool, &exchanges));
        expect_best(random, &value, &exchanges, 1 << 14, &best);
        expect_exchanges(random, &value, limits, 1 << 14, &Ok(exchanges));
    }
}

#[test]
fn best_tables_of_random_marks() {
    let random = &mut Random::new(211);
    let sizes = [
        (0, 20),
        (1, 40),
        (2, 200),
        (3, 1000),
        (4, 2000),
        (5, 1000),
        (6, 200),
        (7, 40),
    ];
    for (places, tables) in sizes {
        for _ in 0..tables {
            let pool = some_pool(random, places);
            let marks = random_marks(random, 1 << places);
            compare_best(random, &pool.value(), &marks, 1 << places);
        }
    }
}

#[test]
fn best_tables_of_few_marks_at_eight_and_nine_places() {
    let random = &mut Random::new(212);
    for (places, tables) in [(8, 40), (9, 20)] {
        for _ in 0..tables {
            let pool = some_pool(random, places);
            let mut marks = vec![0; 1 << places];
            for _ in 0..25 {
                marks[random.below(1 << places)] = random_mark(random);
            }
            compare_best(random, &pool.value(), &marks, 1 << places);
        }
    }
}

#[test]
fn best_tables_of_ten_to_fourteen_places() {
    let random = &mut Random::new(213);
    for places in 10..=14 {
        for _ in 0..6 {
            let pool = some_pool(random, places);
            let marks = random_marks(random, 1 << places);
            let expected = Ok(best_by_lowest_place(&pool, &marks));
            expect_best(random, &pool.value(), &marks, 1 << places, &expected);
        }
        let pool = some_pool(random, places);
        let limits = Limits::new(3, 4);
        let exchanges = exchanges_by_paths(&pool, limits);
        let expected = Ok(best_by_lowest_place(&pool, &exchanges));
        expect_best(random, &pool.value(), &exchanges, 1 << places, &expected);
    }
}

#[test]
fn a_mark_on_the_empty_set_counts_nothing() {
    let random = &mut Random::new(214);
    for places in 0..=5 {
        for mark in [1, 0x0100, 0xFFFF] {
            let pool = some_pool(random, places);
            let mut marks = vec![0; 1 << places];
            marks[0] = mark;
            let expected = Ok(vec![0; 1 << places]);
            expect_best(random, &pool.value(), &marks, 1 << places, &expected);
        }
    }
}

#[test]
fn marked_sets_of_houses_only_are_worth_nothing() {
    let random = &mut Random::new(215);
    for places in 1..=8 {
        for houses in 1..=places {
            let pool = with_some_weeks(random, &nobody_gives(places, houses));
            let marks = marks_where(places, |set| set < 1 << houses);
            let expected = Ok(vec![0; 1 << places]);
            expect_best(random, &pool.value(), &marks, 1 << places, &expected);
        }
    }
}

#[test]
fn nothing_and_everything_marked() {
    let random = &mut Random::new(216);
    for places in 0..=MOST_PLACES {
        let pool = some_pool(random, places);
        let all_of_it = |set: usize| Held::by(&pool, &places_of(set)).entry();
        let nothing = Ok(vec![0; 1 << places]);
        let everything = Ok((0..1 << places).map(all_of_it).collect());
        let value = pool.value();
        expect_best(random, &value, &vec![0; 1 << places], 1 << places, &nothing);
        expect_best(
            random,
            &value,
            &vec![9; 1 << places],
            1 << places,
            &everything,
        );
    }
}

/// Visits each family of disjoint marked nonempty sets inside a set, each once, with the
/// members and the weeks that it holds.
fn for_each_family(
    pool: &Pool,
    marked: &[usize],
    within: usize,
    (members, weeks): (u32, u32),
    visit: &mut impl FnMut(u32, u32),
) {
    let Some((&set, later)) = marked.split_first() else {
        return visit(members, weeks);
    };
    for_each_family(pool, later, within, (members, weeks), visit);
    if set & within == set {
        let in_set = |&member: &usize| set >> member & 1 == 1;
        let added: Vec<usize> = (pool.houses..pool.places).filter(in_set).collect();
        let added_weeks: u32 = added
            .iter()
            .map(|&member| u32::from(pool.weeks[member]))
            .sum();
        let held = (members + added.len() as u32, weeks + added_weeks);
        for_each_family(pool, later, within ^ set, held, visit);
    }
}

/// An entry by its two parts: members as they are without weeks, and the most weeks among
/// the families of so many members. Few sets are marked, so that all families can be visited,
/// and small ones, so that many have a place in common.
#[test]
fn members_and_weeks_of_an_entry() {
    let random = &mut Random::new(232);
    let mut weeks_given_up = 0;
    for round in 0..10_000 {
        let places = 1 + round % 6;
        let houses = random.between(0, places / 3);
        let pool = pool_that_waits(random, houses, vec![Vec::new(); places]);
        let mut marks = vec![0; 1 << places];
        for _ in 0..random.between(0, 9) {
            let set = [0; 3].map(|_| 1 << random.below(places));
            marks[set[0] | set[1] | set[2]] = random_mark(random);
        }
        let marked: Vec<usize> = (1..1 << places).filter(|&set| marks[set] != 0).collect();
        let (best, _) = filled_best(&pool, &marks);
        let (without_weeks, _) = filled_best(&with_weeks(&pool, vec![0; places]), &marks);
        for (set, &entry) in best.iter().enumerate() {
            let mut families = Vec::new();
            for_each_family(&pool, &marked, set, (0, 0), &mut |members, weeks| {
                families.push((members, weeks));
            });
            let members = families.iter().map(|family| family.0).max().unwrap();
            let with_most = families.iter().filter(|family| family.0 == members);
            let weeks = with_most.map(|family| family.1).max().unwrap();
            let any_weeks = families.iter().map(|family| family.1).max().unwrap();
            let case = (&pool, &marked, set);
            assert_eq!(entry / 65_536, members, "{case:?}");
            assert_eq!(entry % 65_536, weeks, "{case:?}");
            assert_eq!(without_weeks[set], members * 65_536, "{case:?}");
            weeks_given_up += usize::from(weeks < any_weeks);
        }
    }
    assert!(weeks_given_up > 200, "only {weeks_given_up}");
}

/// "A house's weeks count nowhere"; equal weeks are held once for each member.
#[test]
fn weeks_of_houses_and_equal_weeks_in_the_best_table() {
    let random = &mut Random::new(233);
    for places in 0..=MOST_PLACES {
        for _ in 0..if places < 10 { 30 } else { 3 } {
            let pool = some_pool(random, places);
            let marks = random_marks(random, full_entries(&pool));
            let room = full_entries(&pool);
            let expected = Ok(filled_best(&pool, &marks).0);
            let mut other = pool.clone();
            for house in 0..pool.houses {
                other.weeks[house] = random.pick(&GOOD_WEEKS);
            }
            expect_best(random, &other.value(), &marks, room, &expected);
            let (none, _) = filled_best(&with_weeks(&pool, vec![0; places]), &marks);
            for weeks in [1, 256, GREATEST_WEEKS] {
                let held = |entry: &u32| entry + entry / 65_536 * u32::from(weeks);
                let expected = Ok(none.iter().map(held).collect());
                let equal = with_weeks(&pool, vec![weeks; places]).value();
                expect_best(random, &equal, &marks, room, &expected);
            }
        }
    }
}

/// Two marked sets with the lowest place in common: one of up to six more members, who waited
/// longest, and one of a member more, who waited no week.
#[test]
fn one_member_more_comes_before_any_weeks() {
    let random = &mut Random::new(235);
    for few in 1..=6 {
        let places = 2 * few + 2;
        let mut weeks = vec![0; places];
        weeks[1..=few].fill(GREATEST_WEEKS);
        let long_waiting = (1 << (few + 1)) - 1;
        let others = (1 << places) - 1 - long_waiting + 1;
        let mut marks = vec![0; 1 << places];
        marks[long_waiting] = 1;
        marks[others] = 1;
        for houses in [0, 1] {
            let pool = with_weeks(&nobody_gives(places, houses), weeks.clone());
            let expected = best_by_lowest_place(&pool, &marks);
            let members = (few + 2 - houses) as u32;
            assert_eq!(expected[(1 << places) - 1], members * 65_536);
            expect_best(random, &pool.value(), &marks, 1 << places, &Ok(expected));
        }
    }
}

/// The greatest entries there are: up to fourteen members of 999 weeks.
#[test]
fn the_greatest_entries() {
    let random = &mut Random::new(234);
    for houses in [0, 1, 13] {
        let weeks = vec![GREATEST_WEEKS; MOST_PLACES];
        let pool = with_weeks(&nobody_gives(MOST_PLACES, houses), weeks);
        let held = |set: usize| (set >> houses).count_ones() * (65_536 + 999);
        let expected: Vec<u32> = (0..1 << MOST_PLACES).map(held).collect();
        let marks = marks_where(MOST_PLACES, usize::is_power_of_two);
        let room = wide_room(random, &pool);
        expect_best(random, &pool.value(), &marks, room, &Ok(expected));
    }
}

/// Room for exactly the entries, more, and less down to none.
fn rooms_around(random: &mut Random, entries: usize) -> Vec<usize> {
    let mut rooms = vec![
        0,
        entries / 4,
        entries / 2,
        entries - 1,
        entries,
        entries + 1,
    ];
    rooms.push(2 * entries);
    rooms.push(entries + random.between(1, 300));
    rooms
}

#[test]
fn rooms_of_the_exchange_table() {
    let random = &mut Random::new(217);
    for places in 0..=MOST_PLACES {
        let pool = some_pool(random, places);
        let limits = Limits::new(2, 3);
        let table = exchanges_by_paths(&pool, limits);
        for room in rooms_around(random, 1 << places) {
            let expected = if room < table.len() {
                refuse(8, 0)
            } else {
                Ok(table.clone())
            };
            expect_exchanges(random, &pool.value(), limits, room, &expected);
        }
    }
}

/// Both tables lent shorter and longer, in entries and not in bytes; entries of the exchange
/// table beyond the needed ones are garbage and must not be read.
#[test]
fn rooms_of_the_best_table() {
    let random = &mut Random::new(218);
    for places in 0..=10 {
        let pool = some_pool(random, places);
        let entries = 1 << places;
        for exchange_room in rooms_around(random, entries) {
            let mut marks = random_marks(random, entries);
            marks.resize_with(exchange_room, || 0xFFFF);
            for best_room in rooms_around(random, entries) {
                let expected = if exchange_room < entries {
                    refuse(8, 0)
                } else if best_room < entries {
                    refuse(9, 0)
                } else {
                    Ok(best_by_lowest_place(&pool, &marks))
                };
                expect_best(random, &pool.value(), &marks, best_room, &expected);
            }
        }
    }
}

/// Both filling calls, with tables of the given room, must refuse with 6.
fn expect_bad_value(value: &PoolValue, exchanges: &mut Lent<u16>, best: &mut Lent<u32>) {
    let refusal = Refusal { number: 6, at: 0 };
    assert_eq!(Pool::of_value(value), Err(refusal), "{value:?}");
    let answer = fill_best(value, exchanges.contents(), best.part());
    assert_eq!(answer, Answer::refused(refusal), "{value:?}");
    let answer = fill_exchanges(value, Limits::new(3, 3), exchanges.part());
    assert_eq!(answer, Answer::refused(refusal), "{value:?}");
    exchanges.expect_untouched(value);
    best.expect_untouched(value);
}

/// Every value that is made bad of a good one, for good ones of every size and every number
/// of houses.
fn expect_bad_values(random: &mut Random, made_bad: impl Fn(&PoolValue) -> Vec<PoolValue>) {
    let exchanges = &mut Lent::garbage(random, 1 << 14);
    let best = &mut Lent::garbage(random, 1 << 14);
    for places in 0..=MOST_PLACES {
        for houses in 0..=places {
            let gives = random_shape(random, places, houses);
            let good = pool_that_waits(random, houses, gives).value();
            for value in made_bad(&good) {
                expect_bad_value(&value, exchanges, best);
            }
        }
    }
}

#[test]
fn every_arc_astray_is_refused() {
    expect_bad_values(&mut Random::new(219), values_of_arcs_astray);
}

/// Of houses and members alike, and of places that aren't there.
#[test]
fn weeks_outside_their_range_are_refused() {
    expect_bad_values(&mut Random::new(229), values_of_bad_weeks);
}

/// Every number as the weeks of a house, of a member and of a place that isn't there.
#[test]
fn every_value_of_weeks() {
    let random = &mut Random::new(230);
    let good = pool_with(2, 1, vec![vec![1], vec![]]).value();
    let limits = Limits::new(1, 1);
    let exchanges = [0, 0, 0, 2];
    for weeks in 0..=u16::MAX {
        for (place, greatest) in [(0, 999), (1, 999), (2, 0), (13, 0)] {
            let mut value = good;
            value.weeks[place] = weeks;
            let served = if place == 1 { weeks.into() } else { 0 };
            let (table, best) = if weeks <= greatest {
                let held = vec![0, 0, 0, 65_536 + served];
                (Ok(exchanges.to_vec()), Ok(held))
            } else {
                (refuse(6, 0), refuse(6, 0))
            };
            expect_exchanges(random, &value, limits, 4, &table);
            expect_best(random, &value, &exchanges, 4, &best);
        }
    }
}

/// Weeks at their edges, of houses and members alike: the exchange table stays the same.
#[test]
fn weeks_make_no_difference_to_the_exchange_table() {
    let random = &mut Random::new(231);
    for places in 0..=MOST_PLACES {
        for _ in 0..if places < 10 { 10 } else { 2 } {
            let pool = some_pool(random, places);
            let limits = random_limits(random, places);
            let without = with_weeks(&pool, vec![0; places]);
            let expected = Ok(exchanges_by_baseline(&without, limits));
            let room = full_entries(&pool);
            for value in values_of_good_weeks(&pool.value()) {
                expect_exchanges(random, &value, limits, room, &expected);
            }
        }
    }
}

#[test]
fn too_many_places_or_houses_are_refused() {
    let random = &mut Random::new(220);
    let exchanges = &mut Lent::garbage(random, 1 << 17);
    let best = &mut Lent::garbage(random, 1 << 17);
    let none = [0; 14];
    for places in 15..=255 {
        for houses in [0, 1, 14, places, 255] {
            let value = PoolValue {
                places,
                houses,
                gives: none,
                weeks: none,
            };
            expect_bad_value(&value, exchanges, best);
        }
    }
    for places in 0..=14 {
        for houses in places + 1..=255 {
            let value = PoolValue {
                places,
                houses,
                gives: none,
                weeks: none,
            };
            expect_bad_value(&value, exchanges, best);
        }
    }
}

#[test]
fn limits_up_to_fourteen_and_no_further() {
    let random = &mut Random::new(221);
    let pool = some_pool(random, 4);
    let (good, bad) = limits_around_fourteen();
    for limits in good {
        let expected = Ok(exchange::table(&pool, limits));
        expect_exchanges(random, &pool.value(), limits, 16, &expected);
    }
    for limits in bad {
        expect_exchanges(random, &pool.value(), limits, 16, &refuse(7, 0));
    }
}

/// With several causes met the smallest number is given.
#[test]
fn order_of_causes() {
    let random = &mut Random::new(222);
    for places in 1..=10 {
        let good = some_pool(random, places).value();
        let mut astray = good;
        astray.gives[random.below(places)] |= 1 << random.between(places, 15);
        let mut beyond = good;
        beyond.weeks[random.below(places)] = random.pick(&BAD_WEEKS);
        let mut absent = good;
        absent.weeks[random.between(places, 13)] = random.pick(&[1, GREATEST_WEEKS]);
        let entries = 1usize << places;
        for (value, bad_value) in [
            (&good, false),
            (&astray, true),
            (&beyond, true),
            (&absent, true),
        ] {
            for (limits, bad_limits) in [(Limits::new(2, 2), false), (Limits::new(2, 15), true)] {
                for room in [entries - 1, entries] {
                    let expected = match (bad_value, bad_limits, room < entries) {
                        (true, _, _) => refuse(6, 0),
                        (_, true, _) => refuse(7, 0),
                        (_, _, true) => refuse(8, 0),
                        _ => Ok(exchanges_by_paths(&Pool::of_value(value).unwrap(), limits)),
                    };
                    expect_exchanges(random, value, limits, room, &expected);
                }
            }
            for exchange_room in [entries - 1, entries] {
                for best_room in [entries - 1, entries] {
                    let marks = random_marks(random, exchange_room);
                    let expected = match (bad_value, exchange_room < entries, best_room < entries) {
                        (true, _, _) => refuse(6, 0),
                        (_, true, _) => refuse(8, 0),
                        (_, _, true) => refuse(9, 0),
                        _ => Ok(best_by_lowest_place(
                            &Pool::of_value(value).unwrap(),
                            &marks,
                        )),
                    };
                    expect_best(random, value, &marks, best_room, &expected);
                }
            }
        }
    }
}

/// Mostly good, else with one number of any bits at any place.
fn random_weeks_of_value(random: &mut Random, places: usize) -> [u16; MOST_PLACES] {
    let mut weeks = [0; MOST_PLACES];
    weeks[..places].copy_from_slice(&weeks_of_places(random, places));
    if random.chance(10) {
        weeks[random.below(MOST_PLACES)] = random.number() as u16 >> random.below(16);
    }
    weeks
}

/// Values of random bits are mostly refused, and never half filled.
#[test]
fn random_values() {
    let random = &mut Random::new(223);
    for _ in 0..5_000 {
        let places = random.between(0, 5) as u8;
        let houses = random.between(0, 6) as u8;
        let mut gives = [0; 14];
        let wide = random.chance(20);
        for set in gives
            .iter_mut()
            .take(usize::from(places) + usize::from(wide))
        {
            let inside = (1u32 << places) as u16 - 1;
            let members = inside >> houses.min(15) << houses.min(15);
            *set = random.number() as u16 & random.pick(&[members, members, members, inside]);
        }
        let value = PoolValue {
            places,
            houses,
            gives,
            weeks: random_weeks_of_value(random, places.into()),
        };
        let limits = Limits::new(random.between(0, 15) as u8, random.between(0, 15) as u8);
        let room = random.between(20, 40);
        compare_exchanges(random, &value, limits, room);
        let marks = random_marks(random, room);
        let best_room = random.between(20, 40);
        compare_best(random, &value, &marks, best_room);
    }
}
