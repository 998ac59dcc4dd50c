//! Pool records and arcs, read as the tables of fields and causes say them.

use crate::layout::*;
use crate::pools::PoolValue;
use crate::refusal::{refuse, Refusal};

/// "A pool as a value is n, the number of houses (they are the lowest places)
/// and, for each place, the set of places it gives to", here as rising lists; it "now
/// also holds each place's weeks", those of houses too.
#[derive(Clone, Debug, PartialEq, Eq)]
pub struct Pool {
    pub places: usize,
    pub houses: usize,
    pub gives: Vec<Vec<usize>>,
    pub weeks: Vec<u16>,
}

impl Pool {
    pub fn is_house(&self, place: usize) -> bool {
        place < self.houses
    }

    pub fn is_member(&self, place: usize) -> bool {
        !self.is_house(place)
    }

    pub fn has_arc(&self, giver: usize, taker: usize) -> bool {
        self.gives[giver].contains(&taker)
    }

    pub fn members_in(&self, places: &[usize]) -> usize {
        let member = |&&place: &&usize| self.is_member(place);
        places.iter().filter(member).count()
    }

    /// The lists as the C interface tells them; weeks are 0 for a place that isn't there.
    pub fn value(&self) -> PoolValue {
        let mut gives = [0; MOST_PLACES];
        for (set, takers) in gives.iter_mut().zip(&self.gives) {
            *set = set_number(takers) as u16;
        }
        let mut weeks = [0; MOST_PLACES];
        weeks[..self.places].copy_from_slice(&self.weeks);
        PoolValue {
            places: self.places as u8,
            houses: self.houses as u8,
            gives,
            weeks,
        }
    }

    /// A "pool passed as a value", or cause 6.
    pub fn of_value(value: &PoolValue) -> Result<Pool, Refusal> {
        if has_wrong_size(value) || has_arc_astray(value) || has_wrong_weeks(value) {
            return refuse(6, 0);
        }
        let places = usize::from(value.places);
        let there = &value.gives[..places];
        Ok(Pool {
            places,
            houses: value.houses.into(),
            gives: there.iter().map(|&set| places_of(set.into())).collect(),
            weeks: value.weeks[..places].to_vec(),
        })
    }
}

/// "Over 14 places, more houses than places."
fn has_wrong_size(value: &PoolValue) -> bool {
    usize::from(value.places) > MOST_PLACES || value.houses > value.places
}

/// "Arc into a house or from or to a place that isn't there."
fn has_arc_astray(value: &PoolValue) -> bool {
    let into_house = |taker: usize| taker < usize::from(value.houses);
    let astray = |giver: usize, taker: usize| {
        !is_there(value, giver) || !is_there(value, taker) || into_house(taker)
    };
    let takers = |giver: usize| places_of(value.gives[giver].into());
    let has_astray = |giver: usize| takers(giver).iter().any(|&taker| astray(giver, taker));
    (0..MOST_PLACES).any(has_astray)
}

/// "Weeks above 999, or other than 0 for a place that isn't there", of houses and members
/// alike.
fn has_wrong_weeks(value: &PoolValue) -> bool {
    let wrong = |place: usize| {
        let weeks = value.weeks[place];
        weeks > GREATEST_WEEKS || !is_there(value, place) && weeks != 0
    };
    (0..MOST_PLACES).any(wrong)
}

fn is_there(value: &PoolValue, place: usize) -> bool {
    place < usize::from(value.places)
}

/// "A set of places is a number: the sum of 2 to the power i over its places i."
pub fn set_number(places: &[usize]) -> usize {
    places.iter().map(|&place| 1 << place).sum()
}

/// The places of a set, rising.
pub fn places_of(set: usize) -> Vec<usize> {
    (0..16).filter(|place| set >> place & 1 == 1).collect()
}

/// The fields of the table "Pool records", "weeks waited" and "the machine's number".
struct Record<'a>(&'a [u8]);

impl Record<'_> {
    fn is_house(&self) -> bool {
        self.0[KIND] == HOUSE
    }

    fn is_member(&self) -> bool {
        self.0[KIND] == MEMBER
    }

    fn class(&self) -> u8 {
        self.0[CLASS]
    }

    fn grade(&self) -> u8 {
        self.0[GRADE]
    }

    fn least_grade(&self) -> u8 {
        self.0[LEAST_GRADE]
    }

    /// "Multi-byte numbers are little-endian."
    fn two_bytes(&self, at: usize) -> u16 {
        u16::from(self.0[at]) + 256 * u16::from(self.0[at + 1])
    }

    fn weeks(&self) -> u16 {
        self.two_bytes(WEEKS)
    }

    fn machine_number(&self) -> u16 {
        self.two_bytes(MACHINE_NUMBER)
    }

    /// "classes taken, bit c set where class c is taken", little-endian.
    fn takes(&self, class: u8) -> bool {
        let byte = self.0[CLASSES_TAKEN + usize::from(class / 8)];
        byte >> (class % 8) & 1 == 1
    }

    fn takes_any(&self) -> bool {
        (0..32).any(|class| self.takes(class))
    }

    /// 3: "kind neither 72 nor 77".
    fn kind_is_unknown(&self) -> bool {
        !self.is_house() && !self.is_member()
    }

    /// "Number 4 keeps the class alone": "class of the machine given, 0 to 31".
    fn class_is_outside_range(&self) -> bool {
        self.class() > 31
    }

    /// "19 when a grade or a least grade exceeds 100", of houses and members alike.
    fn grade_exceeds_100(&self) -> bool {
        self.grade() > 100 || self.least_grade() > 100
    }

    /// "20 when a house has a least grade or a class taken."
    fn is_house_that_takes(&self) -> bool {
        self.is_house() && (self.least_grade() != 0 || self.takes_any())
    }

    /// 5: "house after a member", which need not be the record before.
    fn is_house_after_member(&self, earlier: &[Record]) -> bool {
        self.is_house() && earlier.iter().any(Record::is_member)
    }

    /// 18: "weeks exceed 999 or the machine number is zero", of houses and members alike.
    fn weeks_or_machine_wrong(&self) -> bool {
        self.weeks() > GREATEST_WEEKS || self.machine_number() == 0
    }
}

/// Reading pool bytes: the first cause met, else the pool as a value.
pub fn read(bytes: &[u8]) -> Result<Pool, Refusal> {
    if !bytes.len().is_multiple_of(RECORD) {
        return refuse(1, 0);
    }
    if bytes.len() / RECORD > MOST_PLACES {
        return refuse(2, 0);
    }
    let records: Vec<Record> = bytes.chunks(RECORD).map(Record).collect();
    for (at, record) in records.iter().enumerate() {
        if let Some(number) = first_cause(&records[..at], record) {
            return refuse(number, at);
        }
    }
    Ok(value_of(&records))
}

/// "3 to 5 record by record"; 19 and 20 "are tested in each record between 4 and 5, 20 after
/// 19", and 18 "in each record after 5".
fn first_cause(earlier: &[Record], record: &Record) -> Option<u64> {
    let causes = [
        (3, record.kind_is_unknown()),
        (4, record.class_is_outside_range()),
        (19, record.grade_exceeds_100()),
        (20, record.is_house_that_takes()),
        (5, record.is_house_after_member(earlier)),
        (18, record.weeks_or_machine_wrong()),
    ];
    let (number, _) = causes.into_iter().find(|(_, met)| *met)?;
    Some(number)
}

fn value_of(records: &[Record]) -> Pool {
    let takers = |giver: &Record| {
        let given = |&taker: &usize| gives_to(giver, &records[taker]);
        (0..records.len()).filter(given).collect()
    };
    Pool {
        places: records.len(),
        houses: records.iter().filter(|record| record.is_house()).count(),
        gives: records.iter().map(takers).collect(),
        weeks: records.iter().map(Record::weeks).collect(),
    }
}

/// "Place u gives to place v exactly when v is a member, bit class(u) is set in
/// v's classes taken, and grade(u) is at least v's least grade."
fn gives_to(u: &Record, v: &Record) -> bool {
    v.is_member() && v.takes(u.class()) && u.grade() >= v.least_grade()
}
