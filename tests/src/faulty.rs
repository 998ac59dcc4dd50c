//! Pools with faults of their records, each with the number that is told.

use crate::layout::{HOUSE, MEMBER, MOST_PLACES, RECORD, WEEKS};
use crate::pools::{bytes_of, random_records, Record};
use crate::random::Random;
use crate::samples::BAD_WEEKS;

/// What alters a record.
pub type Fault = fn(&mut Record);

/// Each way to meet each cause of a record, in the order in which the causes are tested: of
/// several in one record the first is told. Put in from the last to the first, none undoes
/// another; those that only a house can have make a house of a member.
pub const FAULTS: [(u64, Fault); 9] = [
    (3, |record| record.kind = 70),
    (4, |record| record.class = 32),
    (19, |record| record.grade = 101),
    (19, |record| record.least = 101),
    (20, |record| {
        make_house(record);
        record.least = 1;
    }),
    (20, |record| {
        make_house(record);
        record.taken = 1 << 31;
    }),
    (5, make_house),
    (18, |record| record.weeks = 1_000),
    (18, |record| record.machine = 0),
];

/// A member becomes a house that takes nothing; a house stays what it is.
fn make_house(record: &mut Record) {
    if record.kind != HOUSE {
        record.kind = HOUSE;
        record.least = 0;
        record.taken = 0;
    }
}

/// The faults that record `at` can have: that of 5 only behind a member.
pub fn faults_at(records: &[Record], at: usize) -> Vec<(u64, Fault)> {
    let behind_member = records[..at].iter().any(|record| record.kind == MEMBER);
    let can_be = |(number, _): &(u64, Fault)| *number != 5 || behind_member;
    FAULTS.into_iter().filter(can_be).collect()
}

/// The pool with these faults, told in the order of `FAULTS`, in record `at`.
pub fn pool_with_faults(records: &[Record], at: usize, faults: &[(u64, Fault)]) -> Vec<u8> {
    let mut records = records.to_vec();
    for (_, fault) in faults.iter().rev() {
        fault(&mut records[at]);
    }
    bytes_of(&records)
}

/// The pools with one or two faults in record `at`, and the number told.
pub fn pools_of_one_or_two_faults(records: &[Record], at: usize) -> Vec<(Vec<u8>, u64)> {
    let faults = faults_at(records, at);
    let mut pools = Vec::new();
    for (place, &first) in faults.iter().enumerate() {
        for &second in &faults[place..] {
            let pool = pool_with_faults(records, at, &[first, second]);
            pools.push((pool, first.0));
        }
    }
    pools
}

/// The record with one field outside its range, mostly at an edge, and the number told.
fn wrong_fields(record: Record) -> Vec<(Record, u64)> {
    let mut wrong = Vec::new();
    for kind in [0, 1, 67, 71, 73, 76, 78, 82, 104, 109, 255] {
        wrong.push((Record { kind, ..record }, 3));
    }
    for class in [32, 33, 64, 255] {
        wrong.push((Record { class, ..record }, 4));
    }
    for grade in [101, 128, 255] {
        let least = grade;
        wrong.push((Record { grade, ..record }, 19));
        wrong.push((Record { least, ..record }, 19));
    }
    if record.kind == HOUSE {
        for least in [1, 50, 100] {
            wrong.push((Record { least, ..record }, 20));
        }
        for class in 0..32 {
            let taken = 1 << class;
            wrong.push((Record { taken, ..record }, 20));
        }
    }
    for weeks in BAD_WEEKS {
        wrong.push((Record { weeks, ..record }, 18));
    }
    let machine = 0;
    wrong.push((Record { machine, ..record }, 18));
    wrong
}

/// The pools with one wrong field in record `at`, and the number told.
pub fn pools_of_wrong_fields(records: &[Record], at: usize) -> Vec<(Vec<u8>, u64)> {
    let altered = |(wrong, number): (Record, u64)| {
        let mut records = records.to_vec();
        records[at] = wrong;
        (bytes_of(&records), number)
    };
    wrong_fields(records[at]).into_iter().map(altered).collect()
}

/// Visits pools of every size with each record, a house or a member, at fault: with a wrong
/// field, and with one or two faults of any numbers.
pub fn for_every_record_at_fault(
    random: &mut Random,
    mut visit: impl FnMut(&mut Random, &[u8], u64, usize),
) {
    for places in 1..=MOST_PLACES {
        for houses in [0, places / 2, places] {
            let records = random_records(random, places, houses);
            for at in 0..places {
                let wrong_fields = pools_of_wrong_fields(&records, at);
                let faults = pools_of_one_or_two_faults(&records, at);
                for (pool, number) in wrong_fields.into_iter().chain(faults) {
                    visit(random, &pool, number, at);
                }
            }
        }
    }
}

/// The pools with a fault in record `early` and one in record `late`, or in all from there
/// on, and the number told, which is that of `early`.
fn pools_of_two_records(records: &[Record], early: usize, late: usize) -> Vec<(Vec<u8>, u64)> {
    let mut pools = Vec::new();
    for (number, first) in faults_at(records, early) {
        for (_, second) in FAULTS {
            let mut records = records.to_vec();
            first(&mut records[early]);
            second(&mut records[late]);
            pools.push((bytes_of(&records), number));
            records[late + 1..].iter_mut().for_each(second);
            pools.push((bytes_of(&records), number));
        }
    }
    pools
}

/// Visits pools of so many places with each two records, houses or members, at fault.
pub fn for_every_two_records_at_fault(
    random: &mut Random,
    places: usize,
    mut visit: impl FnMut(&mut Random, &[u8], u64, usize),
) {
    for late in 1..places {
        for early in 0..late {
            for houses in [0, early + 1, late + 1] {
                let records = random_records(random, places, houses);
                for (pool, number) in pools_of_two_records(&records, early, late) {
                    visit(random, &pool, number, early);
                }
            }
        }
    }
}

/// A pool with two faults of any numbers, in one record or in two.
pub fn pool_of_two_faults(random: &mut Random, places: usize) -> Vec<u8> {
    let houses = random.between(0, places);
    let mut records = random_records(random, places, houses);
    let one = random.below(places);
    let other = if random.chance(50) {
        one
    } else {
        random.below(places)
    };
    let mut chosen = [random.below(FAULTS.len()), random.below(FAULTS.len())];
    chosen.sort();
    let [(_, first), (_, last)] = chosen.map(|fault| FAULTS[fault]);
    last(&mut records[other]);
    first(&mut records[one]);
    bytes_of(&records)
}

/// Pools with each cause of reading, and its spot: no whole records, too many of them, and
/// each fault of record `at`. Of the lengths some are whole records without weeks and
/// machine number.
pub fn faulty_pools(
    random: &mut Random,
    places: usize,
    houses: usize,
    at: usize,
) -> Vec<(Vec<u8>, u64, usize)> {
    let records = random_records(random, places, houses);
    let mut pools = vec![
        (bytes_of(&records)[1..].to_vec(), 1, 0),
        (bytes_of(&records)[WEEKS..].to_vec(), 1, 0),
        (bytes_of(&records)[RECORD - WEEKS..].to_vec(), 1, 0),
        (bytes_of(&random_records(random, MOST_PLACES + 1, 2)), 2, 0),
        (bytes_of(&random_records(random, 25, 2)), 2, 0),
    ];
    for fault in faults_at(&records, at) {
        let pool = pool_with_faults(&records, at, &[fault]);
        pools.push((pool, fault.0, at));
    }
    pools
}
