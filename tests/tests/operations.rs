//! Record k, limits, the operations of a set and clearing of a pool value, each
//! against the oracle, through the program `operations`.

use swapboard_tests::large;
use swapboard_tests::operations::{Commands, MOST_PLAN};
use swapboard_tests::oracle::exchange::Limits;
use swapboard_tests::oracle::plan::{clear_value, cleared};
use swapboard_tests::oracle::pool::read;
use swapboard_tests::pools::{pool_a, random_shape};
use swapboard_tests::random::Random;
use swapboard_tests::refusal::Refusal;
use swapboard_tests::samples::*;

/// Every set with each place in turn, so that each place meets many sets.
#[test]
fn every_set() {
    let random = &mut Random::new(601);
    let mut commands = Commands::default();
    for set in 0..=u16::MAX {
        commands.set(set, (set % 18) as u8);
        commands.set(set, random.byte());
    }
    commands.run();
}

/// Every place, those above 15 too, with sets that hold few, many and random places.
#[test]
fn every_place() {
    let random = &mut Random::new(602);
    let mut commands = Commands::default();
    for place in 0..=u8::MAX {
        for bit in 0..16 {
            commands.set(1 << bit, place);
            commands.set(!(1 << bit), place);
            commands.set(random.number() as u16, place);
        }
        commands.set(0, place);
        commands.set(u16::MAX, place);
    }
    commands.run();
}

/// Each number is written by itself: where a write fails, those before it are out.
#[test]
fn number_by_number() {
    let mut commands = Commands::default();
    commands.set(0b1101, 3);
    commands.limits(Limits::new(2, 3));
    commands.limits(Limits::new(15, 0));
    commands.record(&[7; 32], 1);
    let a = read(&pool_a()).unwrap().value();
    for limits in [Limits::new(2, 2), Limits::new(0, 15)] {
        commands.clear(&a, limits, &clear_value(&a, limits, cleared));
    }
    commands.run_write_by_write();
}

#[test]
fn every_pair_of_limits() {
    let mut commands = Commands::default();
    for lc in 0..=u8::MAX {
        for lp in 0..=u8::MAX {
            commands.limits(Limits::new(lc, lp));
        }
    }
    commands.run();
}

/// Every length with every k near it; bytes that are all different show where the part
/// lies.
#[test]
fn every_record_of_every_length() {
    let mut commands = Commands::default();
    let plan: Vec<u8> = (0..=255).collect();
    for length in 0..=MOST_PLAN {
        for k in 0..=17 {
            commands.record(&plan[..length], k);
        }
    }
    commands.run();
}

/// Any k: 16 × k does not wrap round to a record that is there.
#[test]
fn records_far_behind_the_plan() {
    let random = &mut Random::new(603);
    let mut commands = Commands::default();
    for length in [0, 15, 16, 17, 32, 160, MOST_PLAN] {
        let plan = random.bytes(length);
        for bit in 4..64 {
            for k in [(1 << bit) - 1, 1 << bit, (1 << bit) + 1] {
                commands.record(&plan, k);
            }
        }
        for back in 0..40 {
            commands.record(&plan, u64::MAX - back);
            commands.record(&plan, random.number());
        }
    }
    commands.run();
}

/// Plans of any bytes: nothing is tested, 255 and kinds included.
#[test]
fn records_of_any_bytes() {
    let random = &mut Random::new(604);
    let mut commands = Commands::default();
    for _ in 0..4_000 {
        let length = random.between(0, MOST_PLAN);
        let plan = random.bytes(length);
        commands.record(&plan, random.below(18) as u64);
    }
    commands.run();
}

/// Pool values against the brute force, and larger ones against the second methods.
#[test]
fn pool_values_cleared() {
    let random = &mut Random::new(605);
    let mut commands = Commands::default();
    for round in 0..600 {
        let places = round % 15;
        let pool = some_pool(random, places);
        let limits = if places <= 6 {
            random_limits(random, places)
        } else {
            Limits::new(random.below(5) as u8, random.below(5) as u8)
        };
        let method = if places <= 6 { cleared } else { large::cleared };
        let value = pool.value();
        commands.clear(&value, limits, &clear_value(&value, limits, method));
    }
    commands.run();
}

/// 6 before 7: a set, the weeks, the places or the houses of a faultless pool altered in one
/// bit or by one, under good limits and bad.
#[test]
fn pool_values_refused() {
    let random = &mut Random::new(606);
    let mut commands = Commands::default();
    let (good, bad) = limits_around_fourteen();
    for round in 0..1_500 {
        let places = round % 8;
        let mut value = some_pool(random, places).value();
        match round % 5 {
            0 => value.gives[random.below(14)] ^= 1 << random.below(16),
            1 => value.places = random.below(20) as u8,
            2 => value.houses = random.below(10) as u8,
            _ => value.weeks[random.below(14)] ^= 1 << random.below(16),
        }
        let among = if random.chance(50) { &good } else { &bad };
        let limits = random.pick(among);
        let expected = clear_value(&value, limits, large::cleared);
        commands.clear(&value, limits, &expected);
    }
    let a = read(&pool_a()).unwrap().value();
    for limits in good.into_iter().chain(bad) {
        commands.clear(&a, limits, &clear_value(&a, limits, cleared));
    }
    commands.run();
}

/// Weeks at their edges and beyond them at every place, 6 before 7.
#[test]
fn weeks_of_pool_values() {
    let random = &mut Random::new(607);
    let mut commands = Commands::default();
    for places in 0..=14 {
        for houses in [0, 1, places / 2, places].map(|houses| houses.min(places)) {
            let gives = random_shape(random, places, houses);
            let value = pool_that_waits(random, houses, gives).value();
            let refused = Err(Refusal { number: 6, at: 0 });
            for bad in values_of_bad_weeks(&value) {
                commands.clear(&bad, Limits::new(2, 2), &refused);
                commands.clear(&bad, Limits::new(2, 15), &refused);
            }
        }
    }
    for places in 1..=7 {
        let value = some_pool(random, places).value();
        for good in values_of_good_weeks(&value) {
            let limits = Limits::new(random.between(0, 3) as u8, random.between(0, 3) as u8);
            let expected = clear_value(&good, limits, cleared);
            assert!(expected.is_ok(), "{good:?}");
            commands.clear(&good, limits, &expected);
        }
    }
    commands.run();
}
