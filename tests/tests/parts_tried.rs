//! How many parts of sets are tried while the best table is filled.

use swapboard_tests::calls::{fill_best, fill_exchanges, Answer};
use swapboard_tests::filling::{expect_best, filled_best};
use swapboard_tests::large::best_by_lowest_place;
use swapboard_tests::layout::{GREATEST_WEEKS, MOST_PLACES};
use swapboard_tests::lent::Lent;
use swapboard_tests::marks::*;
use swapboard_tests::oracle::exchange::Limits;
use swapboard_tests::oracle::pool::{read, Pool};
use swapboard_tests::pools::{pool_a, pool_b};
use swapboard_tests::random::Random;
use swapboard_tests::refusal::Refusal;
use swapboard_tests::samples::*;

/// Entries by the second method, the parts tried by the walk.
fn compare(random: &mut Random, pool: &Pool, marks: &[u16]) {
    let room = (1 << pool.places) + random.pick(&[0, 0, 1, 40]);
    let expected = Ok(best_by_lowest_place(pool, marks));
    expect_best(random, &pool.value(), marks, room, &expected);
}

/// The call and the walk both give this number.
fn expect_tried(pool: &Pool, marks: &[u16], tried: u64) {
    assert_eq!(filled_best(pool, marks).1, tried, "{pool:?} {marks:?}");
    compare(&mut Random::new(tried), pool, marks);
}

/// Just these sets are marked.
fn expect_tried_of(places: usize, houses: usize, marked: &[usize], tried: u64) {
    let marks = marks_where(places, |set| marked.contains(&set));
    expect_tried(&nobody_gives(places, houses), &marks, tried);
}

/// A place is in the part, in the set alone or in neither: 3 to the power of places pairs, less
/// the 2 to the power of places whose part is empty.
fn all_parts(places: usize) -> u64 {
    3u64.pow(places as u32) - (1 << places)
}

/// Where nothing stops it; sets without members try none.
fn all_tried(places: usize, houses: usize) -> u64 {
    all_parts(places) - all_parts(houses)
}

#[test]
fn nothing_marked() {
    // 729 - 64 parts of 6 places, less the one of its house alone.
    expect_tried(&read(&pool_a()).unwrap(), &[0; 64], 664);
    // 3 to the power 14 less 2 to the power 14.
    expect_tried_of(14, 0, &[], 4_766_585);
    // The same less 27 - 8.
    expect_tried_of(14, 3, &[], 4_766_566);
    for places in 0..=12 {
        for houses in 0..=places {
            expect_tried_of(places, houses, &[], all_tried(places, houses));
        }
    }
}

/// Every set that has members stops at itself.
#[test]
fn everything_marked() {
    for places in 0..=MOST_PLACES {
        for houses in 0..=places {
            let sets_with_members = (1 << places) - (1 << houses);
            let marks = marks_where(places, |_| true);
            expect_tried(&nobody_gives(places, houses), &marks, sets_with_members);
        }
    }
}

/// The rings and chains of the document's pools.
#[test]
fn rows_of_exchange_tables() {
    let tried = |bytes: &[u8], lc, lp| {
        let pool = read(bytes).unwrap();
        let mut exchanges = vec![7; 1 << pool.places];
        fill_exchanges(&pool.value(), Limits::new(lc, lp), &mut exchanges);
        filled_best(&pool, &exchanges).1
    };
    assert_eq!(tried(&pool_a(), 0, 0), 664);
    // Marked are 3, 6, 7 and 24. They stop at themselves: 2 + 2 + 6 + 2 parts less. 24 stops 25
    // as the 2nd part of 7, 27 and 30 as the 4th of 15, 31 as the 8th of 31. No other set is all
    // served.
    assert_eq!(
        tried(&pool_a(), 2, 2),
        664 - (2 + 2 + 6 + 2) - 5 - 11 - 11 - 23
    );
    // Of 65, marked are 6, 7 and 9: 2 + 6 + 2 less. 9 stops 15 as the 7th part of 15: 8 less.
    assert_eq!(tried(&pool_b(), 3, 0), 65 - (2 + 6 + 2) - 8);
    assert_eq!(tried(&[], 3, 3), 0);
}

#[test]
fn rows_of_few_marks() {
    // Place 2 alone is all served by its only part: nothing less than 243 - 32.
    expect_tried_of(5, 0, &[4], 211);
    // Each pair stops at itself, 2 parts less; 15 at 12, its 4th part of 15.
    expect_tried_of(4, 0, &[3, 12], 65 - 2 - 2 - 11);
    // The pairs share place 1, so 7 is never all served.
    expect_tried_of(3, 0, &[3, 6], 19 - 2 - 2);
    // 7 has one member more than 6 serves.
    expect_tried_of(3, 0, &[6], 19 - 2);
    // By number, not by size: 15 stops at 8, its 8th part; 7 at itself.
    expect_tried_of(4, 0, &[7, 8], 65 - 7 - 6);
    // The chain stops at itself, and 7 has one member more.
    expect_tried_of(3, 1, &[3], 18 - 2);
    // The house is left over: 3 stops at 2, its 2nd part.
    expect_tried_of(2, 1, &[2], 1 + 2);
    // 1, 2, 2 and 4 parts hold the member, with each set of houses; it alone is the last of them.
    expect_tried_of(3, 2, &[4], 9);
    // 1 + 1, 2 + 2 + 2 and 4 parts, down to the highest member there; the house comes behind it
    // and changes nothing.
    expect_tried_of(3, 1, &[1, 2, 4], 12);
    expect_tried_of(3, 1, &[2, 4], 12);
    // A marked house serves nobody: all of 18.
    expect_tried_of(3, 1, &[1], 18);
    // Nor does the empty set.
    expect_tried_of(3, 1, &[0], 18);
}

#[test]
fn one_set_of_all_members_marked() {
    // 14 members: that set stops at itself, 16,382 parts less.
    expect_tried_of(14, 0, &[0x3FFF], 4_766_585 - 16_382);
    for places in 1..=11 {
        for houses in 0..places {
            let members = (1 << places) - (1 << houses);
            // With a set of k houses it is the last of the 2 to the power k parts that hold it.
            let [pairs, each] = [3, 2].map(|base: u64| base.pow(houses as u32));
            let all_parts_there = pairs * (1 << (places - houses)) - each;
            let tried = all_tried(places, houses) - all_parts_there + pairs;
            expect_tried_of(places, houses, &[members], tried);
        }
    }
}

#[test]
fn one_lone_member_marked() {
    for places in 1..=11 {
        for houses in 0..places {
            for member in [houses, places - 1] {
                // Only with houses is the member all there is to serve. It is the last of the
                // parts that hold it: less by as many nonempty parts as those houses have.
                let tried = all_tried(places, houses) - all_parts(houses);
                expect_tried_of(places, houses, &[1 << member], tried);
            }
        }
    }
}

/// A set of k places stops at its highest, the last of 2 to the power k - 1 parts that hold it.
#[test]
fn each_member_alone_marked() {
    for places in 0..=MOST_PLACES {
        let marks = marks_where(places, usize::is_power_of_two);
        let half = (3u64.pow(places as u32) - 1) / 2;
        expect_tried(&nobody_gives(places, 0), &marks, half);
    }
}

#[test]
fn houses_only_try_nothing() {
    let random = &mut Random::new(301);
    for places in 0..=MOST_PLACES {
        for of_64 in DENSITIES {
            let marks = marks_of_density(random, 1 << places, of_64);
            let pool = with_some_weeks(random, &nobody_gives(places, places));
            assert_eq!(filled_best(&pool, &marks), (vec![0; 1 << places], 0));
        }
    }
}

/// A set and what it leaves of all places are marked: all of them stop at the greater one, which
/// comes behind those that are greater still, and the two stop at themselves.
#[test]
fn stopped_at_each_part_of_a_set() {
    let random = &mut Random::new(302);
    for places in 2..=MOST_PLACES {
        let all = (1usize << places) - 1;
        let greater = 1 << (places - 1)..=all - 1;
        let some = |_| random.between(*greater.start(), *greater.end());
        let sets: Vec<usize> = match places {
            0..=7 => greater.clone().collect(),
            8..=11 => (0..12).map(some).collect(),
            _ => (0..3).map(some).collect(),
        };
        for set in sets {
            let less_at = |set: usize| (1 << set.count_ones()) - 2;
            let less = less_at(set) + less_at(all - set) + set as u64 - 1;
            let tried = all_tried(places, 0) - less;
            expect_tried_of(places, 0, &[set, all - set], tried);
        }
    }
}

/// Marks of every density, the largest pools with one density each.
#[test]
fn every_size_with_every_number_of_houses() {
    let random = &mut Random::new(303);
    for places in 0..=MOST_PLACES {
        for houses in 0..=places {
            let densities = if places <= 11 {
                DENSITIES.to_vec()
            } else {
                vec![DENSITIES[1 + houses % 4]]
            };
            for of_64 in densities {
                let marks = marks_of_density(random, 1 << places, of_64);
                let pool = with_some_weeks(random, &nobody_gives(places, houses));
                compare(random, &pool, &marks);
            }
        }
    }
}

/// Exchange tables as the call fills them.
#[test]
fn exchange_tables_of_every_size() {
    let random = &mut Random::new(304);
    for places in 0..=MOST_PLACES {
        for _ in 0..if places < 12 { 20 } else { 3 } {
            let pool = some_pool(random, places);
            let limits = random_limits(random, places);
            let mut exchanges = vec![7; 1 << places];
            fill_exchanges(&pool.value(), limits, &mut exchanges);
            compare(random, &pool, &exchanges);
        }
    }
}

/// "Every set with a nonzero entry": one bit is as good as all.
#[test]
fn every_bit_of_a_mark() {
    let random = &mut Random::new(305);
    for bit in 0..16 {
        for places in [1, 2, 3, 5, 8] {
            let pool = some_pool(random, places);
            let of_64 = random.pick(&[4, 8, 32, 64]);
            let marks = marks_of_density(random, 1 << places, of_64);
            let one_bit: Vec<u16> = marks
                .iter()
                .map(|&mark| u16::from(mark != 0) << bit)
                .collect();
            let (best, tried) = filled_best(&pool, &marks);
            assert_eq!(filled_best(&pool, &one_bit), (best, tried), "bit {bit}");
            compare(random, &pool, &one_bit);
        }
    }
}

/// Parts with members come before those of houses alone, and one of them stops the set where
/// all its members can be served.
#[test]
fn marks_without_members_change_nothing() {
    let random = &mut Random::new(306);
    for places in 1..=9 {
        for houses in 0..=places {
            let pool = with_some_weeks(random, &nobody_gives(places, houses));
            let of_64 = random.pick(&[1, 4, 8, 32]);
            let marks = marks_of_density(random, 1 << places, of_64);
            for mark in [0, 1, 0x8000] {
                let mut other = marks.clone();
                other[..1 << houses].fill(mark);
                assert_eq!(filled_best(&pool, &other), filled_best(&pool, &marks));
                compare(random, &pool, &other);
            }
        }
    }
}

/// It is about members: any weeks, of houses too, give the same number.
#[test]
fn weeks_make_no_difference() {
    let random = &mut Random::new(307);
    for places in 0..=MOST_PLACES {
        for _ in 0..if places < 10 { 20 } else { 2 } {
            let houses = random.between(0, places / 2);
            let pool = nobody_gives(places, houses);
            let marks = random_marks(random, 1 << places);
            let tried = filled_best(&pool, &marks).1;
            let waiting = |weeks| filled_best(&with_weeks(&pool, weeks), &marks).1;
            for weeks in [1, GREATEST_WEEKS] {
                assert_eq!(waiting(vec![weeks; places]), tried, "{marks:?}");
            }
            for _ in 0..4 {
                let other = with_some_weeks(random, &pool);
                assert_eq!(waiting(other.weeks), tried, "{marks:?}");
            }
        }
    }
}

/// What stood in the table before, and what an earlier call or a refusal left, counts nothing.
#[test]
fn calls_one_after_the_other() {
    let random = &mut Random::new(308);
    for places in 0..=10 {
        let pool = some_pool(random, places);
        let value = pool.value();
        let entries = 1usize << places;
        let marks = random_marks(random, entries);
        let (best, tried) = filled_best(&pool, &marks);
        let accepted = Answer::accepted(entries as u64, tried);
        for room in [entries, entries + 1, 2 * entries + 7] {
            let mut table = Lent::garbage(random, room);
            for _ in 0..2 {
                let answer = fill_best(&value, &marks, table.part());
                assert_eq!(answer, accepted, "{value:?}");
                table.expect_front(&best, value);
            }
            let answer = fill_best(&value, &marks, &mut table.part()[..entries - 1]);
            assert_eq!(answer, Answer::refused(Refusal { number: 9, at: 0 }));
            let answer = fill_best(&value, &marks[1..], table.part());
            assert_eq!(answer, Answer::refused(Refusal { number: 8, at: 0 }));
            table.expect_front(&best, value);
        }
    }
}
