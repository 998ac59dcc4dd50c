//! Reading pool bytes and testing pool values.

use crate::layout::*;
use crate::pools::PoolValue;
use crate::refusal::{refuse, Refusal};

pub fn read_pool(bytes: &[u8]) -> Result<PoolValue, Refusal> {
    if !bytes.len().is_multiple_of(RECORD) {
        return refuse(1, 0);
    }
    let places = bytes.len() / RECORD;
    if places > MOST_PLACES {
        return refuse(2, 0);
    }
    let mut houses = 0;
    for (at, record) in bytes.chunks_exact(RECORD).enumerate() {
        houses += test_record(record, at, houses)?;
    }
    let mut gives = [0; MOST_PLACES];
    let mut weeks = [0; MOST_PLACES];
    for (place, record) in bytes.chunks_exact(RECORD).enumerate() {
        gives[place] = takers_of(record, bytes, houses);
        weeks[place] = two_bytes(record, WEEKS);
    }
    Ok(PoolValue {
        places: places as u8,
        houses: houses as u8,
        gives,
        weeks,
    })
}

/// Returns how many houses the record is: 1 or 0.
fn test_record(record: &[u8], at: usize, houses: usize) -> Result<usize, Refusal> {
    let house = match record[KIND] {
        HOUSE => true,
        MEMBER => false,
        _ => return refuse(3, at),
    };
    if record[CLASS] > 31 {
        return refuse(4, at);
    }
    let least = record[LEAST_GRADE];
    if record[GRADE].max(least) > 100 {
        return refuse(19, at);
    }
    if house && u32::from(least) | classes_taken(record) != 0 {
        return refuse(20, at);
    }
    if house && houses < at {
        return refuse(5, at);
    }
    if two_bytes(record, WEEKS) > GREATEST_WEEKS || two_bytes(record, MACHINE_NUMBER) == 0 {
        return refuse(18, at);
    }
    Ok(usize::from(house))
}

fn takers_of(giver: &[u8], bytes: &[u8], houses: usize) -> u16 {
    let mut takers = 0;
    for (place, taker) in bytes.chunks_exact(RECORD).enumerate().skip(houses) {
        let taken = classes_taken(taker) >> giver[CLASS] & 1 == 1;
        let takes = taken && giver[GRADE] >= taker[LEAST_GRADE];
        takers |= u16::from(takes) << place;
    }
    takers
}

fn classes_taken(record: &[u8]) -> u32 {
    u32::from_le_bytes([0, 1, 2, 3].map(|byte| record[CLASSES_TAKEN + byte]))
}

fn two_bytes(record: &[u8], at: usize) -> u16 {
    u16::from_le_bytes([record[at], record[at + 1]])
}

pub fn test_value(pool: &PoolValue) -> Result<(), Refusal> {
    let places = usize::from(pool.places);
    if places > MOST_PLACES || pool.houses > pool.places {
        return refuse(6, 0);
    }
    let members = (1u16 << places) - (1 << pool.houses);
    for place in 0..MOST_PLACES {
        let (takers, greatest) = if place < places {
            (members, GREATEST_WEEKS)
        } else {
            (0, 0)
        };
        if pool.gives[place] & !takers != 0 || pool.weeks[place] > greatest {
            return refuse(6, 0);
        }
    }
    Ok(())
}

pub fn test_limits(lc: u8, lp: u8) -> Result<(), Refusal> {
    if lc > 14 || lp > 14 {
        return refuse(7, 0);
    }
    Ok(())
}

/// For each place the set of places that give to it.
pub fn givers_of(pool: &PoolValue) -> [u16; MOST_PLACES] {
    let mut givers = [0; MOST_PLACES];
    for (giver, &takers) in pool.gives.iter().enumerate() {
        for taker in places_in(takers) {
            givers[taker] |= 1 << giver;
        }
    }
    givers
}

/// The places of a set, rising.
pub fn places_in(set: u16) -> impl Iterator<Item = usize> {
    let mut rest = set;
    std::iter::from_fn(move || {
        let place = rest.trailing_zeros() as usize;
        (rest != 0).then(|| {
            rest &= rest - 1;
            place
        })
    })
}
