//! Reading pool bytes: every refusal at every record, and the arcs and weeks of accepted
//! pools.

use swapboard_tests::baseline::pool::read_pool as read_by_baseline;
use swapboard_tests::calls::{read_pool, Answer};
use swapboard_tests::faulty::*;
use swapboard_tests::layout::*;
use swapboard_tests::lent::Lent;
use swapboard_tests::oracle::pool::{read, Pool};
use swapboard_tests::pools::*;
use swapboard_tests::random::Random;
use swapboard_tests::refusal::Refusal;
use swapboard_tests::samples::{pool_with, with_weeks, GOOD_MACHINES, GOOD_WEEKS};

/// What reading leaves in the lent arrays.
#[derive(Clone, Copy, Debug, PartialEq, Eq)]
struct ReadInto {
    gives: [u16; MOST_PLACES],
    weeks: [u16; MOST_PLACES],
}

impl ReadInto {
    fn of(value: &Pool) -> Self {
        let PoolValue { gives, weeks, .. } = value.value();
        ReadInto { gives, weeks }
    }
}

/// Calls with garbage in `gives` and `weeks`; on a refusal all of it must be as it was.
fn call(random: &mut Random, pool: &[u8]) -> (Answer, Option<ReadInto>) {
    let mut lent_pool = Lent::holding(random, pool);
    let mut gives = Lent::garbage(random, MOST_PLACES);
    let mut weeks = Lent::garbage(random, MOST_PLACES);
    let answer = read_pool(
        lent_pool.part(),
        gives.part().try_into().unwrap(),
        weeks.part().try_into().unwrap(),
    );
    lent_pool.expect_untouched(pool);
    if answer.number == 0 {
        gives.expect_front(gives.contents(), pool);
        weeks.expect_front(weeks.contents(), pool);
        let read_into = ReadInto {
            gives: gives.contents().try_into().unwrap(),
            weeks: weeks.contents().try_into().unwrap(),
        };
        return (answer, Some(read_into));
    }
    gives.expect_untouched(pool);
    weeks.expect_untouched(pool);
    (answer, None)
}

/// The expectation is told beforehand; the oracle and the baseline must agree with it.
fn expect_refused(random: &mut Random, pool: &[u8], number: u64, at: usize) {
    let refusal = Refusal {
        number,
        at: at as u64,
    };
    let (answer, _) = call(random, pool);
    assert_eq!(answer, Answer::refused(refusal), "{pool:?}");
    assert_eq!(read(pool), Err(refusal), "oracle: {pool:?}");
    assert_eq!(read_by_baseline(pool), Err(refusal), "baseline: {pool:?}");
}

fn expect_accepted(random: &mut Random, pool: &[u8], value: &Pool) {
    let (answer, read_into) = call(random, pool);
    let accepted = Answer::accepted(value.places as u64, value.houses as u64);
    assert_eq!(answer, accepted, "{pool:?}");
    assert_eq!(read_into, Some(ReadInto::of(value)), "{pool:?}");
    assert_eq!(read(pool).as_ref(), Ok(value), "oracle: {pool:?}");
    assert_eq!(
        read_by_baseline(pool),
        Ok(value.value()),
        "baseline: {pool:?}"
    );
}

/// The value of these records with these arcs: the weeks of houses and members are theirs.
fn value_of(records: &[Record], gives: &[Vec<usize>]) -> Pool {
    let houses = records.iter().filter(|record| record.kind == HOUSE);
    let value = pool_with(records.len(), houses.count(), gives.to_vec());
    with_weeks(&value, weeks_of(records))
}

fn weeks_of(records: &[Record]) -> Vec<u16> {
    records.iter().map(|record| record.weeks).collect()
}

/// Compares with the oracle, whatever it says.
fn compare(random: &mut Random, pool: &[u8]) {
    match read(pool) {
        Ok(value) => expect_accepted(random, pool, &value),
        Err(refusal) => expect_refused(random, pool, refusal.number, refusal.at as usize),
    }
}

/// Refused by the number at this record, or accepted where there is none.
fn expect_number(random: &mut Random, pool: &[u8], number: Option<u64>, at: usize) {
    match number {
        Some(number) => expect_refused(random, pool, number, at),
        None => expect_accepted(random, pool, &read(pool).expect("no cause is met")),
    }
}

/// Every pool of up to 14 records, with every number of houses.
fn for_all_sizes(mut visit: impl FnMut(usize, usize)) {
    for places in 0..=MOST_PLACES {
        for houses in 0..=places {
            visit(places, houses);
        }
    }
}

/// Alters record `at` of a faultless pool and expects the refusal there.
fn expect_fault(
    random: &mut Random,
    records: &[Record],
    at: usize,
    number: u64,
    fault: impl Fn(&mut Record),
) {
    let mut faulty = records.to_vec();
    fault(&mut faulty[at]);
    expect_refused(random, &bytes_of(&faulty), number, at);
}

#[test]
fn every_length_of_random_and_of_valid_bytes() {
    let random = &mut Random::new(101);
    let records = MOST_PLACES + 3;
    let valid = bytes_of(&random_records(random, records, 3));
    for len in 0..=records * RECORD {
        let pools = [random.bytes(len), valid[..len].to_vec()];
        for pool in &pools {
            compare(random, pool);
        }
        if len % RECORD != 0 {
            expect_refused(random, &pools[0], 1, 0);
            expect_refused(random, &pools[1], 1, 0);
        } else if len > MOST_PLACES * RECORD {
            expect_refused(random, &pools[0], 2, 0);
            expect_refused(random, &pools[1], 2, 0);
        } else {
            let (answer, _) = call(random, &pools[1]);
            let places = len / RECORD;
            let accepted = Answer::accepted(places as u64, places.min(3) as u64);
            assert_eq!(answer, accepted);
        }
    }
}

/// Records that end before the weeks, as they once did: some numbers of them are whole
/// records, and too many of these are refused by 2.
#[test]
fn records_without_weeks_and_machine_number() {
    let random = &mut Random::new(121);
    let without = |pool: &[u8]| {
        let records = pool.chunks(RECORD).map(|record| &record[..WEEKS]);
        records.collect::<Vec<_>>().concat()
    };
    expect_refused(random, &without(&pool_a()), 3, 1);
    expect_refused(random, &without(&pool_b()), 1, 0);
    for records in 0..=3 * MOST_PLACES {
        let pool = without(&bytes_of(&random_records(random, records, 1)));
        if pool.len() % RECORD != 0 {
            expect_refused(random, &pool, 1, 0);
        } else if pool.len() > MOST_PLACES * RECORD {
            expect_refused(random, &pool, 2, 0);
        } else {
            compare(random, &pool);
        }
    }
}

#[test]
fn very_long_pools() {
    let random = &mut Random::new(102);
    for records in [15, 16, 32, 64, 256, 8192, 8193] {
        let pool = bytes_of(&random_records(random, records, 0));
        expect_refused(random, &pool, 2, 0);
        expect_refused(random, &pool[1..], 1, 0);
    }
}

/// Each cause alone, at houses and at members.
#[test]
fn wrong_fields_at_every_record() {
    let random = &mut Random::new(104);
    for_all_sizes(|places, houses| {
        let records = random_records(random, places, houses);
        for at in 0..places {
            for (pool, number) in pools_of_wrong_fields(&records, at) {
                expect_refused(random, &pool, number, at);
            }
        }
    });
}

#[test]
fn every_other_kind() {
    let random = &mut Random::new(103);
    let records = random_records(random, 3, 1);
    for kind in (0..=255).filter(|kind| ![HOUSE, MEMBER].contains(kind)) {
        for at in 0..records.len() {
            expect_fault(random, &records, at, 3, |record| record.kind = kind);
        }
    }
}

/// What a house may not take, a member may: any class, alone or left out, at any least grade.
#[test]
fn a_member_that_takes_anything() {
    let random = &mut Random::new(105);
    let houses = 2;
    let mut records = random_records(random, MOST_PLACES, houses);
    for at in houses..MOST_PLACES {
        for class in 0..32 {
            for taken in [1 << class, !(1 << class)] {
                for least in [0, 1, 99, 100] {
                    (records[at].least, records[at].taken) = (least, taken);
                    expect_number(random, &bytes_of(&records), None, at);
                }
            }
        }
    }
}

#[test]
fn greatest_values_in_range_are_accepted() {
    let random = &mut Random::new(106);
    let mut greatest_house = Record::house(31, 100);
    let mut greatest_member = Record::member(31, 100, 100, u32::MAX);
    greatest_house.weeks = GREATEST_WEEKS;
    greatest_member.weeks = GREATEST_WEEKS;
    let least_member = Record::member(0, 0, 0, 0);
    for_all_sizes(|places, houses| {
        for member in [greatest_member, least_member] {
            let mut records = vec![greatest_house; houses];
            records.resize(places, member);
            let takes = member.taken != 0;
            let takers: Vec<usize> = (houses..places).filter(|_| takes).collect();
            let value = value_of(&records, &vec![takers; places]);
            expect_accepted(random, &bytes_of(&numbered(records.clone())), &value);
            for (record, machine) in records.iter_mut().zip((1..=u16::MAX).rev()) {
                record.machine = machine;
            }
            expect_accepted(random, &bytes_of(&records), &value);
        }
    });
}

/// The number that a value of a field is refused by, in a record without another fault.
fn number_of(house: bool, field: usize, value: u8) -> Option<u64> {
    match (field, value) {
        (CLASS, 32..) => Some(4),
        (GRADE | LEAST_GRADE, 101..) => Some(19),
        (LEAST_GRADE, 1..) if house => Some(20),
        _ => None,
    }
}

#[test]
fn every_value_of_every_bounded_field_at_every_record() {
    let random = &mut Random::new(107);
    let houses = MOST_PLACES / 2;
    let sound = bytes_of(&random_records(random, MOST_PLACES, houses));
    for value in 0..=255 {
        for field in [CLASS, GRADE, LEAST_GRADE] {
            for at in 0..MOST_PLACES {
                let mut pool = sound.clone();
                pool[at * RECORD + field] = value;
                let number = number_of(at < houses, field, value);
                expect_number(random, &pool, number, at);
            }
        }
    }
}

/// Every value of one with every value of another, in a house and in a member.
#[test]
fn every_value_of_two_bounded_fields() {
    let random = &mut Random::new(128);
    for record in [Record::house(0, 50), Record::member(0, 50, 0, 1)] {
        for (one, other) in [(CLASS, GRADE), (CLASS, LEAST_GRADE), (GRADE, LEAST_GRADE)] {
            let mut pool = record.bytes();
            for value in 0..=255 {
                pool[one] = value;
                for value in 0..=255 {
                    pool[other] = value;
                    compare(random, &pool);
                }
            }
        }
    }
}

/// The records with this machine number at `at`; the record that had it gets the other.
fn with_machine(records: &[Record], at: usize, machine: u16) -> Vec<Record> {
    let mut records = records.to_vec();
    let before = records[at].machine;
    for record in &mut records {
        if record.machine == machine {
            record.machine = before;
        }
    }
    records[at].machine = machine;
    records
}

fn with_weeks_at(records: &[Record], at: usize, weeks: u16) -> Vec<Record> {
    let mut records = records.to_vec();
    records[at].weeks = weeks;
    records
}

/// The records as a value with these arcs, or 18 at the record.
fn expect_value_or_18(
    random: &mut Random,
    records: &[Record],
    gives: &[Vec<usize>],
    at: usize,
    good: bool,
) {
    let pool = bytes_of(records);
    if good {
        expect_accepted(random, &pool, &value_of(records, gives));
    } else {
        expect_refused(random, &pool, 18, at);
    }
}

/// Of houses and members alike, and all weeks are returned.
#[test]
fn weeks_and_machine_numbers_at_their_edges_are_accepted() {
    let random = &mut Random::new(122);
    for_all_sizes(|places, houses| {
        let gives = random_shape(random, places, houses);
        let mut records = records_of_arcs(houses, &gives);
        draw_weeks_and_machines(random, &mut records);
        for at in 0..places {
            for weeks in GOOD_WEEKS {
                let altered = with_weeks_at(&records, at, weeks);
                expect_value_or_18(random, &altered, &gives, at, true);
            }
            for machine in GOOD_MACHINES {
                let altered = with_machine(&records, at, machine);
                expect_value_or_18(random, &altered, &gives, at, true);
            }
        }
    });
}

#[test]
fn every_value_of_weeks_and_machine_number() {
    let random = &mut Random::new(123);
    let gives = vec![vec![1], vec![]];
    let records = records_of_arcs(1, &gives);
    for number in 0..=u16::MAX {
        for at in 0..records.len() {
            let weeks = with_weeks_at(&records, at, number);
            expect_value_or_18(random, &weeks, &gives, at, number <= 999);
            let machine = with_machine(&records, at, number);
            expect_value_or_18(random, &machine, &gives, at, number != 0);
        }
    }
}

/// A record of each kind with every choice of these values for the bytes of both numbers.
#[test]
fn bytes_of_weeks_and_machine_number() {
    const VALUES: [u8; 7] = [0, 1, 3, 4, 231, 232, 255];
    let random = &mut Random::new(124);
    let choices = VALUES.len().pow(4);
    for (record, houses) in [(Record::house(0, 50), 1), (Record::member(0, 50, 0, 0), 0)] {
        let value = pool_with(1, houses, vec![vec![]]);
        for choice in 0..choices {
            let digit = |at: u32| VALUES[choice / VALUES.len().pow(at) % VALUES.len()];
            let (low, high) = (digit(0), digit(1));
            let (machine_low, machine_high) = (digit(2), digit(3));
            let mut pool = record.bytes();
            pool[WEEKS] = low;
            pool[WEEKS + 1] = high;
            pool[MACHINE_NUMBER] = machine_low;
            pool[MACHINE_NUMBER + 1] = machine_high;
            let weeks = u16::from(low) + 256 * u16::from(high);
            if weeks <= 999 && (machine_low > 0 || machine_high > 0) {
                expect_accepted(random, &pool, &with_weeks(&value, vec![weeks]));
            } else {
                expect_refused(random, &pool, 18, 0);
            }
        }
    }
}

/// Whole records by hand, so that every field stands where the document has it.
#[test]
fn records_told_byte_by_byte() {
    let random = &mut Random::new(125);
    let pool = |house: [u8; 4], member: [u8; 4]| {
        let mut pool = vec![72, 0, 50, 0, 0, 0, 0, 0];
        pool.extend(house);
        pool.extend([77, 1, 50, 40, 1, 0, 0, 0]);
        pool.extend(member);
        pool
    };
    let value = pool_with(2, 1, vec![vec![1], vec![]]);
    let sound = [7, 0, 1, 0];
    for (bytes, weeks) in [
        ([1, 0, 2, 0], 1),
        ([255, 0, 2, 0], 255),
        ([0, 1, 2, 0], 256),
        ([1, 2, 2, 0], 513),
        ([231, 3, 2, 0], 999),
        ([4, 0, 0, 2], 4),
        ([0, 0, 232, 3], 0),
        ([0, 0, 255, 255], 0),
    ] {
        let house = with_weeks(&value, vec![weeks, 7]);
        expect_accepted(random, &pool(bytes, sound), &house);
        let member = with_weeks(&value, vec![7, weeks]);
        expect_accepted(random, &pool(sound, bytes), &member);
    }
    for bytes in [
        [232, 3, 2, 0],
        [3, 231, 2, 0],
        [0, 4, 2, 0],
        [255, 255, 2, 0],
        [0, 0, 0, 0],
    ] {
        expect_refused(random, &pool(bytes, sound), 18, 0);
        expect_refused(random, &pool(sound, bytes), 18, 1);
    }
}

/// The first eight bytes of a record by hand, first in the pool and behind a member, where a
/// house is late.
#[test]
fn causes_told_byte_by_byte() {
    let random = &mut Random::new(129);
    let behind = [&[0, 0, 2, 0][..], &Record::member(0, 50, 0, 0).bytes()].concat();
    for (record, number) in [
        ([70, 32, 101, 101, 1, 0, 0, 0], Some(3)),
        ([72, 32, 101, 101, 1, 0, 0, 0], Some(4)),
        ([72, 31, 101, 0, 0, 0, 0, 0], Some(19)),
        ([72, 31, 101, 1, 1, 0, 0, 0], Some(19)),
        ([72, 31, 100, 101, 0, 0, 0, 0], Some(19)),
        ([72, 31, 100, 100, 0, 0, 0, 0], Some(20)),
        ([72, 31, 100, 1, 0, 0, 0, 0], Some(20)),
        ([72, 31, 100, 0, 1, 0, 0, 0], Some(20)),
        ([72, 31, 100, 0, 0, 0, 0, 128], Some(20)),
        ([72, 31, 100, 0, 0, 0, 0, 0], None),
        ([77, 32, 101, 101, 1, 0, 0, 0], Some(4)),
        ([77, 31, 101, 100, 1, 0, 0, 0], Some(19)),
        ([77, 31, 100, 101, 1, 0, 0, 0], Some(19)),
        ([77, 31, 100, 100, 255, 255, 255, 255], None),
    ] {
        let pool = [&record[..], &behind].concat();
        expect_number(random, &pool, number, 0);
        let late = (record[KIND] == 72).then_some(5);
        let turned = [&pool[RECORD..], &pool[..RECORD]].concat();
        expect_number(random, &turned, number.or(late), 1);
    }
}

/// "Pools A and B go on with weeks 0 and place plus 1 as machine number."
#[test]
fn pools_a_and_b_byte_by_byte() {
    let a = [
        [72, 0, 50, 0, 0, 0, 0, 0, 0, 0, 1, 0],
        [77, 1, 50, 40, 5, 0, 0, 0, 0, 0, 2, 0],
        [77, 2, 50, 40, 2, 0, 0, 0, 0, 0, 3, 0],
        [77, 3, 50, 40, 20, 0, 0, 0, 0, 0, 4, 0],
        [77, 4, 50, 40, 8, 0, 0, 0, 0, 0, 5, 0],
        [77, 5, 50, 40, 16, 0, 0, 0, 0, 0, 6, 0],
    ];
    assert_eq!(pool_a(), a.concat());
    let b = [
        [77, 0, 50, 40, 12, 0, 0, 0, 0, 0, 1, 0],
        [77, 1, 50, 40, 5, 0, 0, 0, 0, 0, 2, 0],
        [77, 2, 50, 40, 2, 0, 0, 0, 0, 0, 3, 0],
        [77, 3, 50, 40, 1, 0, 0, 0, 0, 0, 4, 0],
    ];
    assert_eq!(pool_b(), b.concat());
}

/// Pools that differ in weeks and machine numbers alone are values that differ in weeks
/// alone.
#[test]
fn weeks_and_machine_numbers_make_no_arcs() {
    let random = &mut Random::new(126);
    for_all_sizes(|places, houses| {
        let mut records = random_records(random, places, houses);
        let gives = read(&bytes_of(&records)).unwrap().gives;
        for _ in 0..4 {
            draw_weeks_and_machines(random, &mut records);
            let value = value_of(&records, &gives);
            expect_accepted(random, &bytes_of(&records), &value);
        }
    });
}

#[test]
fn a_house_after_any_earlier_member() {
    let random = &mut Random::new(108);
    for_all_sizes(|places, houses| {
        let records = random_records(random, places, houses);
        for at in houses + 1..places {
            expect_fault(random, &records, at, 5, |record| {
                *record = Record::house(7, 9)
            });
        }
    });
}

#[test]
fn houses_after_a_member_that_is_not_the_record_before() {
    let random = &mut Random::new(109);
    let member = Record::member(1, 50, 40, 5);
    let house = Record::house(0, 50);
    let records = numbered([house, member, house, house, member, house]);
    expect_refused(random, &bytes_of(&records), 5, 2);
}

/// The first record at fault decides, be it a house or a member, whatever is wrong in one
/// behind it or in all: its 18 comes before their 3.
#[test]
fn order_of_causes_between_records() {
    let random = &mut Random::new(110);
    for_every_two_records_at_fault(random, MOST_PLACES, expect_refused);
}

/// In one record the first of 3, 4, 19, 20, 5, 18 decides: every choice of the ways to meet
/// them together, at every record of pools of members, of houses and of both.
#[test]
fn order_of_causes_in_one_record() {
    let random = &mut Random::new(111);
    for places in [1, 2, 3, 8, MOST_PLACES] {
        for houses in [0, places / 2, places] {
            let records = random_records(random, places, houses);
            for at in 0..places {
                expect_first_of_every_choice(random, &records, at);
            }
        }
    }
}

fn expect_first_of_every_choice(random: &mut Random, records: &[Record], at: usize) {
    let faults = faults_at(records, at);
    for choice in 1..1 << faults.len() {
        let places = (0..faults.len()).filter(|place| choice >> place & 1 == 1);
        let chosen: Vec<_> = places.map(|place| faults[place]).collect();
        let pool = pool_with_faults(records, at, &chosen);
        expect_refused(random, &pool, chosen[0].0, at);
    }
}

/// Every wrong field of a house comes before its being late, but for weeks and machine
/// number.
#[test]
fn order_of_causes_in_a_late_house() {
    let random = &mut Random::new(127);
    for at in 1..MOST_PLACES {
        let mut records = random_records(random, MOST_PLACES, 0);
        records[at] = Record::house(0, 50);
        expect_refused(random, &bytes_of(&records), 5, at);
        for (pool, number) in pools_of_wrong_fields(&records, at) {
            let first = if number == 18 { 5 } else { number };
            expect_refused(random, &pool, first, at);
        }
    }
}

#[test]
fn length_is_tested_before_records() {
    let random = &mut Random::new(112);
    for records in 1..40 {
        let pool = random.bytes(records * RECORD);
        for cut in 1..RECORD {
            expect_refused(random, &pool[cut..], 1, 0);
        }
        if records > MOST_PLACES {
            expect_refused(random, &pool, 2, 0);
        }
    }
}

#[test]
fn arcs_at_the_edge_of_grade_and_class() {
    let random = &mut Random::new(113);
    let arcs = |giver: Record, taker: Record, random: &mut Random| {
        let (answer, read_into) = call(random, &bytes_of(&numbered([giver, taker])));
        assert_eq!(answer.number, 0);
        read_into.unwrap().gives[0] & 2 == 2
    };
    for grade in 0..=100 {
        for least in 0..=100 {
            for giver in [Record::house(9, grade), Record::member(9, grade, 0, 0)] {
                let taker = Record::member(0, 0, least, 1 << 9);
                assert_eq!(arcs(giver, taker, random), grade >= least);
            }
        }
    }
    for class in 0..32 {
        for taken in 0..32 {
            let giver = Record::house(class, 50);
            let only = Record::member(0, 0, 0, 1 << taken);
            let others = Record::member(0, 0, 0, !(1 << taken));
            assert_eq!(arcs(giver, only, random), class == taken);
            assert_eq!(arcs(giver, others, random), class != taken);
        }
    }
}

#[test]
fn a_member_may_give_to_itself_and_a_house_never_takes() {
    let random = &mut Random::new(114);
    let itself = Record::member(6, 50, 50, 1 << 6);
    let records = numbered([Record::house(6, 50), Record::house(6, 49), itself]);
    let value = pool_with(3, 2, vec![vec![2], vec![], vec![2]]);
    expect_accepted(random, &bytes_of(&records), &value);
}

#[test]
fn rows_of_the_document() {
    let random = &mut Random::new(115);
    let gives = vec![vec![1], vec![2], vec![1, 3], vec![4], vec![3, 5], vec![]];
    expect_accepted(random, &pool_a(), &pool_with(6, 1, gives));
    let gives = vec![vec![1, 3], vec![2], vec![0, 1], vec![0]];
    expect_accepted(random, &pool_b(), &pool_with(4, 0, gives));
    expect_accepted(random, &[], &pool_with(0, 0, Vec::new()));
    for (least, arc) in [(50, vec![1]), (51, vec![])] {
        let records = numbered([Record::house(0, 50), Record::member(1, 50, least, 1)]);
        let value = pool_with(2, 1, vec![arc, vec![]]);
        expect_accepted(random, &bytes_of(&records), &value);
    }
}

#[test]
fn wanted_arcs_are_the_arcs_read() {
    let random = &mut Random::new(116);
    for_all_sizes(|places, houses| {
        for percent in [0, 10, 50, 90, 100] {
            let gives = random_arcs(random, places, houses, percent, percent);
            let pool = bytes_of_arcs(houses, &gives);
            expect_accepted(random, &pool, &pool_with(places, houses, gives));
        }
    });
}

#[test]
fn random_pools_of_every_size() {
    let random = &mut Random::new(117);
    for_all_sizes(|places, houses| {
        for _ in 0..100 {
            let pool = bytes_of(&random_records(random, places, houses));
            assert!(read(&pool).is_ok(), "{pool:?}");
            compare(random, &pool);
        }
    });
}

#[test]
fn records_with_damaged_bytes() {
    let random = &mut Random::new(118);
    for _ in 0..20_000 {
        let places = random.between(1, MOST_PLACES);
        let mut pool = random_pool(random, places);
        for _ in 0..random.between(1, 3) {
            damage(random, &mut pool);
        }
        compare(random, &pool);
    }
}

#[test]
fn totally_random_bytes() {
    let random = &mut Random::new(119);
    for _ in 0..10_000 {
        let records = random.pick(&[1, 2, 3, 7, MOST_PLACES - 1, MOST_PLACES, MOST_PLACES + 1]);
        let more = random.pick(&[0, 0, 0, 1, RECORD - 1]);
        let pool = random.bytes(records * RECORD + more);
        compare(random, &pool);
    }
}

/// Random bytes seldom pass the kind, so here the kinds are right and the rest is not.
#[test]
fn random_fields_behind_right_kinds() {
    let random = &mut Random::new(120);
    for _ in 0..10_000 {
        let places = random.between(1, MOST_PLACES);
        let mut pool = random_pool(random, places);
        for record in pool.chunks_mut(RECORD) {
            if random.chance(30) {
                record[KIND] = random.pick(&[HOUSE, MEMBER]);
            }
            if random.chance(10) {
                record[random.between(KIND + 1, RECORD - 1)] = random.byte();
            }
        }
        compare(random, &pool);
    }
}
