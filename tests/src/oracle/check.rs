//! Checking a plan: the causes 11 to 17 as their table says them.

use super::exchange::Limits;
use super::pool::{read, Pool};
use crate::refusal::{refuse, Refusal};

/// The checker: the causes of reading, then 7 and 11, "12 to 17 record by record",
/// else the members served.
pub fn check(bytes: &[u8], limits: Limits, plan: &[u8]) -> Result<usize, Refusal> {
    let pool = read(bytes)?;
    limits.test()?;
    if !plan.len().is_multiple_of(16) {
        return refuse(11, 0);
    }
    let records: Vec<&[u8]> = plan.chunks(16).collect();
    let mut served = 0;
    for at in 0..records.len() {
        let (earlier, rest) = records.split_at(at);
        match first_cause(&pool, limits, earlier, rest[0]) {
            Some(number) => return refuse(number, at),
            None => served += pool.members_in(&listed(rest[0])),
        }
    }
    Ok(served)
}

/// The smallest number whose cause is met in a record behind faultless ones.
fn first_cause(pool: &Pool, limits: Limits, earlier: &[&[u8]], record: &[u8]) -> Option<u64> {
    if no_list(pool, record) {
        return Some(12);
    }
    let list = listed(record);
    if met_before(earlier, &list) {
        return Some(13);
    }
    if out_of_order(earlier, &list) {
        return Some(14);
    }
    if arc_missing(pool, &list) {
        return Some(15);
    }
    if wrong_length(pool, limits, &list) {
        return Some(16);
    }
    if wrong_kind_or_count(pool, &list, record) {
        return Some(17);
    }
    None
}

/// "First byte 255, a place not below n, or a place after 255."
fn no_list(pool: &Pool, record: &[u8]) -> bool {
    let bytes = &record[..14];
    let beyond = |&byte: &u8| byte != 255 && usize::from(byte) >= pool.places;
    let after_255 = |at: usize| bytes[at] != 255 && bytes[..at].contains(&255);
    bytes[0] == 255 || bytes.iter().any(beyond) || (0..14).any(after_255)
}

/// The places before the first 255.
fn listed(record: &[u8]) -> Vec<usize> {
    let places = record[..14].iter().take_while(|&&byte| byte != 255);
    places.map(|&byte| byte.into()).collect()
}

/// "A place met before, here or in an earlier record."
fn met_before(earlier: &[&[u8]], list: &[usize]) -> bool {
    let in_earlier = |place: &usize| earlier.iter().any(|record| listed(record).contains(place));
    let here = |at: usize| list[..at].contains(&list[at]);
    list.iter().any(in_earlier) || (0..list.len()).any(here)
}

/// "First place not above that of the record before, or a place lower than its
/// record's first."
fn out_of_order(earlier: &[&[u8]], list: &[usize]) -> bool {
    let not_above = |before: &&[u8]| list[0] <= listed(before)[0];
    earlier.last().is_some_and(not_above) || list.iter().any(|&place| place < list[0])
}

/// "A record whose first place is a house is tested as a chain, any other as a ring."
fn is_tested_as_chain(pool: &Pool, list: &[usize]) -> bool {
    pool.is_house(list[0])
}

/// "A needed arc missing": each to the next, and in a ring the last to the first.
fn arc_missing(pool: &Pool, list: &[usize]) -> bool {
    let mut needed: Vec<(usize, usize)> = list.windows(2).map(|pair| (pair[0], pair[1])).collect();
    if !is_tested_as_chain(pool, list) {
        needed.push((list[list.len() - 1], list[0]));
    }
    needed
        .iter()
        .any(|&(giver, taker)| !pool.has_arc(giver, taker))
}

/// "Too long, or a chain with no member"; a limit counts members.
fn wrong_length(pool: &Pool, limits: Limits, list: &[usize]) -> bool {
    let members = pool.members_in(list);
    let limit = if is_tested_as_chain(pool, list) {
        limits.lp
    } else {
        limits.lc
    };
    members > usize::from(limit) || members == 0
}

/// "Byte 14 or 15 wrong."
fn wrong_kind_or_count(pool: &Pool, list: &[usize], record: &[u8]) -> bool {
    let kind = if is_tested_as_chain(pool, list) {
        67
    } else {
        82
    };
    record[14] != kind || usize::from(record[15]) != pool.members_in(list)
}
