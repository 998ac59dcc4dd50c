//! The filling calls, with everything they return and leave compared.

use crate::calls::{fill_best, fill_exchanges, Answer};
use crate::lent::{Garbage, Lent};
use crate::oracle::exchange::Limits;
use crate::oracle::pool::Pool;
use crate::oracle::tried::parts_tried;
use crate::pools::PoolValue;
use crate::random::Random;
use crate::refusal::Refusal;
use std::fmt::Debug;

/// The answer, of which `second` is what it has beside the entries written, and all of the lent
/// table as expected.
fn expect_filled<T: Garbage>(
    answer: Answer,
    second: u64,
    table: &Lent<T>,
    expected: &Result<Vec<T>, Refusal>,
    case: impl Debug,
) {
    match expected {
        Ok(entries) => {
            let written = entries.len() as u64;
            assert_eq!(answer, Answer::accepted(written, second), "{case:?}");
            table.expect_front(entries, case);
        }
        Err(refusal) => {
            assert_eq!(answer, Answer::refused(*refusal), "{case:?}");
            table.expect_untouched(case);
        }
    }
}

/// Fills an exchange table of `room` entries of garbage.
pub fn expect_exchanges(
    random: &mut Random,
    value: &PoolValue,
    limits: Limits,
    room: usize,
    expected: &Result<Vec<u16>, Refusal>,
) {
    let mut table = Lent::garbage(random, room);
    let answer = fill_exchanges(value, limits, table.part());
    expect_filled(answer, 0, &table, expected, (value, limits));
}

/// Fills a best table of `room` entries of garbage. The parts tried are those of a walk through
/// them over the expected entries.
pub fn expect_best(
    random: &mut Random,
    value: &PoolValue,
    exchanges: &[u16],
    room: usize,
    expected: &Result<Vec<u32>, Refusal>,
) {
    let mut lent_exchanges = Lent::holding(random, exchanges);
    let mut table = Lent::garbage(random, room);
    let answer = fill_best(value, lent_exchanges.part(), table.part());
    lent_exchanges.expect_untouched(value);
    let tried = |entries: &Vec<u32>| {
        let pool = Pool::of_value(value).expect("a pool that is filled");
        parts_tried(&pool, exchanges, entries)
    };
    let tried = expected.as_ref().map_or(0, tried);
    expect_filled(answer, tried, &table, expected, (value, exchanges));
}

/// The entries and the parts tried as the call gives them, to be compared with another call.
pub fn filled_best(pool: &Pool, marks: &[u16]) -> (Vec<u32>, u64) {
    let mut best = vec![u32::MAX; 1 << pool.places];
    let answer = fill_best(&pool.value(), marks, &mut best);
    let tried = answer.second;
    let accepted = Answer::accepted(best.len() as u64, tried);
    assert_eq!(answer, accepted, "{pool:?}");
    (best, tried)
}
