//! The workshop program on whole files: all it prints, byte for byte.

use swapboard_tests::faulty::*;
use swapboard_tests::layout::*;
use swapboard_tests::pools::*;
use swapboard_tests::program::{printed, text, Files, COUNTED};
use swapboard_tests::random::Random;
use swapboard_tests::samples::*;

const LONGEST: usize = 70_000;

/// Lengths up to the counted bytes and beyond, and some of long files.
fn lengths() -> impl Iterator<Item = usize> {
    (0..=COUNTED + 32).chain([255, 256, 257, 1_000, 4_096, LONGEST])
}

/// Limits files that are none: of another length, or with a limit above 14.
const BAD_LIMITS: [&[u8]; 9] = [
    &[],
    &[2],
    &[2, 2, 2],
    &[2, 2, 0, 0],
    &[2, 2, 2, 2, 2],
    &[15, 0],
    &[0, 15],
    &[255, 255],
    &[50, 10],
];

/// The program against the oracle.
fn compare(files: &Files) {
    assert_eq!(printed(files), text(files), "{files:?}");
}

/// The program and the oracle against a text written by hand.
fn expect(files: &Files, expected: &str) {
    assert_eq!(text(files), expected, "the oracle: {files:?}");
    assert_eq!(printed(files), expected, "{files:?}");
}

fn expect_refusal(files: &Files, number: u64, at: usize) {
    expect(files, &format!("refused {number} {at}\n"));
}

fn files_at_random_limits(random: &mut Random, pool: &[u8]) -> Files {
    let limits = random_limits(random, pool.len() / RECORD);
    Files::new(pool, limits.lc, limits.lp)
}

#[test]
fn rows_of_the_document() {
    let a = pool_a();
    let two = "served 4 of 5\nchain 0 1 2\nring 3 4\n";
    expect(&Files::new(&a, 2, 2), two);
    expect(&Files::new(&a, 2, 3), two);
    let long = "served 4 of 5\nchain 0 1 2 3 4\n";
    expect(&Files::new(&a, 2, 4), long);
    let longest = "served 5 of 5\nchain 0 1 2 3 4 5\n";
    expect(&Files::new(&a, 2, 5), longest);
    let rings = "served 4 of 5\nring 1 2\nring 3 4\n";
    expect(&Files::new(&a, 2, 0), rings);
    expect(&Files::new(&a, 0, 2), "served 2 of 5\nchain 0 1 2\n");
    expect(&Files::new(&a, 0, 0), "served 0 of 5\n");
    let b = "served 4 of 4\nring 0 3\nring 1 2\n";
    expect(&Files::new(&pool_b(), 3, 0), b);
    expect(&Files::new(&[], 3, 3), "served 0 of 0\n");
    for (least, printed) in [(50, "served 1 of 1\nchain 0 1\n"), (51, "served 0 of 1\n")] {
        let records = numbered([Record::house(0, 50), Record::member(1, 50, least, 1)]);
        expect(&Files::new(&bytes_of(&records), 0, 1), printed);
    }
}

/// Every count and place from 0 to 14, those of two digits too.
#[test]
fn rings_and_chains_of_every_length() {
    let places = |first: usize, last: usize| {
        let words = (first..=last).map(|place| format!(" {place}"));
        words.collect::<String>()
    };
    for members in 1..MOST_PLACES {
        let pool = bytes_of_arcs(1, &one_ring(members + 1, 1));
        let served = format!("served {members} of {members}\n");
        let chain = format!("{served}chain{}\n", places(0, members));
        let ring = format!("{served}ring{}\n", places(1, members));
        expect(&Files::new(&pool, 0, members as u8), &chain);
        expect(&Files::new(&pool, members as u8, 0), &ring);
        let nothing = format!("served 0 of {members}\n");
        expect(&Files::new(&pool, members as u8 - 1, 0), &nothing);
    }
    let ring = bytes_of_arcs(0, &one_ring(MOST_PLACES, 0));
    let all = format!("served 14 of 14\nring{}\n", places(0, 13));
    expect(&Files::new(&ring, 14, 0), &all);
}

/// Members that all give to themselves: as many records as members.
#[test]
fn every_number_of_records() {
    for places in 0..=MOST_PLACES {
        let alone: Vec<Vec<usize>> = (0..places).map(|place| vec![place]).collect();
        let mut expected = format!("served {places} of {places}\n");
        for place in 0..places {
            expected += &format!("ring {place}\n");
        }
        expect(&Files::new(&bytes_of_arcs(0, &alone), 1, 0), &expected);
    }
}

/// "M: all members", served or not; houses are none.
#[test]
fn every_number_of_houses_and_members() {
    for places in 0..=MOST_PLACES {
        for houses in 0..=places {
            let pool = bytes_of_arcs(houses, &vec![Vec::new(); places]);
            let expected = format!("served 0 of {}\n", places - houses);
            expect(&Files::new(&pool, 14, 14), &expected);
        }
    }
}

/// The counted bytes are 16 records, so from there on no length is a broken one.
fn expect_length_tested(pool: &[u8]) {
    let files = Files::new(pool, 3, 3);
    match pool.len() {
        COUNTED.. => expect_refusal(&files, 2, 0),
        length if length % RECORD != 0 => expect_refusal(&files, 1, 0),
        length if length > MOST_PLACES * RECORD => expect_refusal(&files, 2, 0),
        _ => compare(&files),
    }
}

/// Faultless records, cut off anywhere.
#[test]
fn every_length_of_the_pool() {
    let random = &mut Random::new(501);
    let records = bytes_of(&random_records(random, LONGEST / RECORD + 1, 1));
    for length in lengths() {
        expect_length_tested(&records[..length]);
    }
}

/// 1 and 2 come before any record is looked at.
#[test]
fn every_length_of_a_pool_of_any_bytes() {
    let random = &mut Random::new(502);
    for length in lengths() {
        expect_length_tested(&random.bytes(length));
    }
}

/// 16 whole records, one byte fewer, and anything behind them: most of these lengths would
/// be refused by 1 if more than the counted bytes counted.
#[test]
fn bytes_beyond_those_that_count() {
    let random = &mut Random::new(503);
    let front = bytes_of(&random_records(random, 16, 2));
    assert_eq!(front.len(), COUNTED);
    expect_refusal(&Files::new(&front[..COUNTED - 1], 3, 3), 1, 0);
    expect_refusal(&Files::new(&front, 3, 3), 2, 0);
    let around_records = [RECORD - 1, RECORD, RECORD + 1, 5 * RECORD, 5 * RECORD + 4];
    let around_the_whole = [COUNTED - 1, COUNTED, COUNTED + 1];
    for behind in [1, 2, 64]
        .into_iter()
        .chain(around_records)
        .chain(around_the_whole)
    {
        for tail in [vec![0; behind], vec![255; behind], random.bytes(behind)] {
            let whole = [&front[..], &tail].concat();
            expect_refusal(&Files::new(&whole, 3, 3), 2, 0);
        }
    }
}

#[test]
fn missing_files() {
    let a = Some(pool_a());
    let limits = Some(vec![2, 2]);
    let no_pool = Files { pool: None, limits };
    expect(&no_pool, "served 0 of 0\n");
    let no_limits = Files {
        pool: a,
        limits: None,
    };
    expect_refusal(&no_limits, 7, 0);
    let nothing = Files {
        pool: None,
        limits: None,
    };
    expect_refusal(&nothing, 7, 0);
    for limits in BAD_LIMITS {
        let files = Files {
            pool: None,
            limits: Some(limits.to_vec()),
        };
        expect_refusal(&files, 7, 0);
    }
}

#[test]
fn every_short_length_of_the_limits() {
    let lengths = (0..=20).chain([COUNTED - 1, COUNTED, COUNTED + 1, COUNTED + 2, 258, 4_098]);
    for length in lengths {
        for value in [0, 2, 14, 15] {
            let limits = vec![value; length];
            for pool in [pool_a(), pool_b(), Vec::new()] {
                let files = Files::of(&pool, &limits);
                if length != 2 || value > 14 {
                    expect_refusal(&files, 7, 0);
                } else {
                    compare(&files);
                }
            }
        }
    }
}

#[test]
fn limits_up_to_fourteen_and_no_further() {
    let (good, bad) = limits_around_fourteen();
    for pool in [pool_a(), pool_b(), Vec::new()] {
        for limits in &good {
            compare(&Files::new(&pool, limits.lc, limits.lp));
        }
        for limits in &bad {
            expect_refusal(&Files::new(&pool, limits.lc, limits.lp), 7, 0);
        }
    }
}

#[test]
fn wrong_fields_at_every_record() {
    let random = &mut Random::new(504);
    for at in 0..MOST_PLACES {
        for house in [true, false] {
            let houses = at + usize::from(house);
            let records = random_records(random, MOST_PLACES, houses);
            for (pool, number) in pools_of_wrong_fields(&records, at) {
                expect_refusal(&Files::new(&pool, 2, 2), number, at);
            }
        }
    }
}

#[test]
fn a_house_after_a_member_at_every_record() {
    let random = &mut Random::new(505);
    for at in 1..MOST_PLACES {
        for houses in 0..at {
            let mut records = random_records(random, MOST_PLACES, houses);
            records[at] = Record::house(31, 100);
            expect_refusal(&Files::new(&bytes_of(&records), 2, 2), 5, at);
        }
    }
}

/// Every value of the first four bytes of a member and of a house's least grade, those in
/// range too.
#[test]
fn every_value_of_a_field() {
    let of_member = [KIND, CLASS, GRADE, LEAST_GRADE].map(|field| 2 * RECORD + field);
    for byte in of_member.into_iter().chain([LEAST_GRADE]) {
        for value in 0..=255 {
            let mut pool = pool_a();
            pool[byte] = value;
            compare(&Files::new(&pool, 2, 2));
        }
    }
}

/// Where all are served, weeks and machine numbers in range decide nothing: pool B's lines
/// stay what they are.
#[test]
fn weeks_and_machine_numbers_where_all_are_served() {
    let b = "served 4 of 4\nring 0 3\nring 1 2\n";
    for at in 0..4 {
        let expect_b = |field: usize, number: u16| {
            let mut pool = pool_b();
            pool[at * RECORD + field..][..2].copy_from_slice(&number.to_le_bytes());
            expect(&Files::new(&pool, 3, 0), b);
        };
        for weeks in GOOD_WEEKS {
            expect_b(WEEKS, weeks);
        }
        for machine in GOOD_MACHINES.into_iter().filter(|&machine| machine > 4) {
            expect_b(MACHINE_NUMBER, machine);
        }
    }
}

/// A house gives to 1, to 2 and to 3, and these to 4; no week is printed.
#[test]
fn weeks_decide_which_lines_are_printed() {
    let gives = [vec![1, 2, 3], vec![4], vec![4], vec![4], vec![]];
    for (weeks, one, two) in [
        ([0, 0, 0, 0, 0], "chain 0 1", "chain 0 1 4"),
        ([0, 7, 7, 7, 7], "chain 0 1", "chain 0 1 4"),
        ([0, 0, 1, 0, 0], "chain 0 2", "chain 0 2 4"),
        ([0, 0, 1, 2, 999], "chain 0 3", "chain 0 3 4"),
        ([999, 255, 256, 1, 0], "chain 0 2", "chain 0 2 4"),
        ([999, 999, 998, 999, 0], "chain 0 1", "chain 0 1 4"),
        ([0, 998, 998, 999, 999], "chain 0 3", "chain 0 3 4"),
    ] {
        let pool = with_weeks(&pool_with(5, 1, gives.to_vec()), weeks.to_vec());
        let bytes = bytes_of_pool(&pool);
        expect(
            &Files::new(&bytes, 2, 1),
            &format!("served 1 of 4\n{one}\n"),
        );
        expect(
            &Files::new(&bytes, 0, 2),
            &format!("served 2 of 4\n{two}\n"),
        );
        expect(&Files::new(&bytes, 14, 0), "served 0 of 4\n");
    }
}

/// The house gives to one that waited longest, or to two that waited no week; and of two
/// houses the lower one gives, whichever waited longer.
#[test]
fn members_come_before_weeks_and_houses_do_not_wait() {
    let gives = vec![vec![1, 2], vec![], vec![3], vec![]];
    let pool = with_weeks(&pool_with(4, 1, gives), vec![0, 999, 0, 0]);
    let bytes = bytes_of_pool(&pool);
    expect(&Files::new(&bytes, 0, 2), "served 2 of 3\nchain 0 2 3\n");
    expect(&Files::new(&bytes, 0, 1), "served 1 of 3\nchain 0 1\n");
    for weeks in [[0, 999, 5], [999, 0, 5]] {
        let gives = vec![vec![2], vec![2], vec![]];
        let pool = with_weeks(&pool_with(3, 2, gives), weeks.to_vec());
        let bytes = bytes_of_pool(&pool);
        expect(&Files::new(&bytes, 0, 1), "served 1 of 1\nchain 0 2\n");
    }
}

/// Two rings that share a member, of which one is printed, and the chains through them.
#[test]
fn weeks_decide_between_rings() {
    let gives = [vec![1], vec![2, 3], vec![1, 4], vec![1], vec![]];
    for (weeks, lines) in [
        ([0, 0, 0, 0, 0], "chain 0 1 2\n"),
        ([0, 5, 0, 1, 0], "chain 0 1 3\n"),
        ([9, 5, 1, 1, 900], "chain 0 1 2\n"),
    ] {
        let pool = with_weeks(&pool_with(5, 1, gives.to_vec()), weeks.to_vec());
        let bytes = bytes_of_pool(&pool);
        expect(
            &Files::new(&bytes, 0, 2),
            &format!("served 2 of 4\n{lines}"),
        );
        let rings = lines.replace("chain 0", "ring");
        expect(
            &Files::new(&bytes, 2, 0),
            &format!("served 2 of 4\n{rings}"),
        );
    }
}

/// Two records at fault: the earlier one's is told.
#[test]
fn the_first_of_two_records_at_fault() {
    let random = &mut Random::new(506);
    let records = random_records(random, 12, 2);
    for first in FAULTS {
        let mut records = records.clone();
        first.1(&mut records[4]);
        for second in FAULTS {
            let pool = pool_with_faults(&records, 10, &[second]);
            expect_refusal(&Files::new(&pool, 2, 2), first.0, 4);
        }
    }
}

/// Two faults in one record: the first of 3, 4, 19, 20, 5, 18 is told.
#[test]
fn the_first_of_two_faults_in_every_record() {
    let random = &mut Random::new(514);
    for (places, houses) in [(1, 1), (2, 0), (5, 2)] {
        let records = random_records(random, places, houses);
        for at in 0..places {
            for (pool, number) in pools_of_one_or_two_faults(&records, at) {
                expect_refusal(&Files::new(&pool, 2, 2), number, at);
            }
        }
    }
}

/// 1 before 2, and both before the records.
#[test]
fn lengths_before_records() {
    let random = &mut Random::new(507);
    let records = random_records(random, 16, 2);
    for fault in faults_at(&records, 0) {
        let pool = pool_with_faults(&records, 0, &[fault]);
        let most = MOST_PLACES * RECORD;
        for length in [RECORD + 1, most - 1, most + 1, COUNTED - 1] {
            expect_refusal(&Files::new(&pool[..length], 2, 2), 1, 0);
        }
        expect_refusal(&Files::new(&pool[..most + RECORD], 2, 2), 2, 0);
        expect_refusal(&Files::new(&pool, 2, 2), 2, 0);
        expect_refusal(&Files::new(&pool[..most], 2, 2), fault.0, 0);
    }
}

#[test]
fn a_refused_pool_with_bad_limits() {
    let random = &mut Random::new(508);
    for (pool, number, at) in faulty_pools(random, 13, 1, 12) {
        for limits in BAD_LIMITS {
            expect_refusal(&Files::of(&pool, limits), number, at);
        }
        let files = Files {
            pool: Some(pool),
            limits: None,
        };
        expect_refusal(&files, number, at);
    }
}

/// Against the brute force over all legal plans.
#[test]
fn random_pools_of_up_to_seven_places() {
    let random = &mut Random::new(509);
    for (places, pools) in [(0, 5), (1, 30), (2, 60), (3, 100)] {
        compare_pools(random, places, pools);
    }
    for (places, pools) in [(4, 150), (5, 150), (6, 100), (7, 80)] {
        compare_pools(random, places, pools);
    }
}

fn compare_pools(random: &mut Random, places: usize, pools: usize) {
    for _ in 0..pools {
        let pool = bytes_of_pool(&some_pool(random, places));
        compare(&files_at_random_limits(random, &pool));
    }
}

/// Records with random fields as they are, grades and classes above 13 too.
#[test]
fn random_records_of_up_to_seven_places() {
    let random = &mut Random::new(510);
    for round in 0..200 {
        let pool = random_pool(random, round % 8);
        compare(&files_at_random_limits(random, &pool));
    }
}

/// Many equal places, so that many plans serve most and only weeks and bytes decide.
#[test]
fn pools_of_many_ties() {
    let random = &mut Random::new(511);
    for round in 0..150 {
        let places = 4 + round % 3;
        let houses = random.between(0, 3);
        let percent = random.pick(&[80, 100]);
        let gives = random_arcs(random, places, houses, percent, 50);
        let pool = bytes_of_pool(&pool_that_waits(random, houses, gives));
        let limit = |random: &mut Random| random.between(0, 3) as u8;
        compare(&Files::new(&pool, limit(random), limit(random)));
    }
}

/// Against the second methods, which the tests of clearing hold to the brute force.
#[test]
fn random_pools_of_eight_to_fourteen_places() {
    let random = &mut Random::new(512);
    for round in 0..70 {
        let places = 8 + round % 7;
        let pool = bytes_of_pool(&some_pool(random, places));
        let limit = |random: &mut Random| random.between(0, 4) as u8;
        compare(&Files::new(&pool, limit(random), limit(random)));
    }
}

#[test]
fn damaged_pools() {
    let random = &mut Random::new(513);
    for _ in 0..300 {
        let places = random.between(1, 6);
        let mut pool = random_pool(random, places);
        damage(random, &mut pool);
        compare(&files_at_random_limits(random, &pool));
        let pool = pool_of_two_faults(random, places);
        compare(&files_at_random_limits(random, &pool));
    }
}
