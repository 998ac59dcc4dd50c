//! Generators of pools: bytes by records with random fields or by wanted arcs,
//! and pool values.

use crate::layout::*;
use crate::random::Random;

/// A pool as the C interface takes it, with room for every value, also the wrong ones.
#[derive(Clone, Copy, Debug, PartialEq, Eq)]
pub struct PoolValue {
    pub places: u8,
    pub houses: u8,
    pub gives: [u16; MOST_PLACES],
    pub weeks: [u16; MOST_PLACES],
}

/// A pool record with room for every value, also the wrong ones.
#[derive(Clone, Copy, Debug)]
pub struct Record {
    pub kind: u8,
    pub class: u8,
    pub grade: u8,
    pub least: u8,
    pub taken: u32,
    pub weeks: u16,
    pub machine: u16,
}

impl Record {
    /// A house of weeks 0 and machine number 1.
    pub fn house(class: u8, grade: u8) -> Self {
        Record {
            kind: HOUSE,
            class,
            grade,
            least: 0,
            taken: 0,
            weeks: 0,
            machine: 1,
        }
    }

    /// A member of weeks 0 and machine number 1.
    pub fn member(class: u8, grade: u8, least: u8, taken: u32) -> Self {
        Record {
            kind: MEMBER,
            class,
            grade,
            least,
            taken,
            weeks: 0,
            machine: 1,
        }
    }

    pub fn bytes(self) -> [u8; RECORD] {
        let mut bytes = [0; RECORD];
        bytes[KIND] = self.kind;
        bytes[CLASS] = self.class;
        bytes[GRADE] = self.grade;
        bytes[LEAST_GRADE] = self.least;
        bytes[CLASSES_TAKEN..][..4].copy_from_slice(&self.taken.to_le_bytes());
        bytes[WEEKS..][..2].copy_from_slice(&self.weeks.to_le_bytes());
        bytes[MACHINE_NUMBER..][..2].copy_from_slice(&self.machine.to_le_bytes());
        bytes
    }
}

pub fn bytes_of(records: &[Record]) -> Vec<u8> {
    records.iter().flat_map(|record| record.bytes()).collect()
}

/// The records with "place plus 1 as machine number".
pub fn numbered(records: impl IntoIterator<Item = Record>) -> Vec<Record> {
    let mut records: Vec<Record> = records.into_iter().collect();
    for (record, machine) in records.iter_mut().zip(1..) {
        record.machine = machine;
    }
    records
}

/// Pool A of the document.
pub fn pool_a() -> Vec<u8> {
    let mut records = vec![Record::house(0, 50)];
    for (class, taken) in [(1, 5), (2, 2), (3, 20), (4, 8), (5, 16)] {
        records.push(Record::member(class, 50, 40, taken));
    }
    bytes_of(&numbered(records))
}

/// Pool B of the document.
pub fn pool_b() -> Vec<u8> {
    let takes = [(0, 12), (1, 5), (2, 2), (3, 1)];
    let records = takes.map(|(class, taken)| Record::member(class, 50, 40, taken));
    bytes_of(&numbered(records))
}

/// How the fields of random records are drawn.
#[derive(Clone, Copy, Debug)]
pub struct Fields {
    /// Classes 0 up to this number are given; few classes make many equal places.
    pub classes: usize,
    pub takes_percent: usize,
    pub lowest_grade: usize,
    pub highest_grade: usize,
}

impl Fields {
    pub fn random(random: &mut Random) -> Self {
        let lowest_grade = random.pick(&[0, 0, 45, 50, 100]);
        Fields {
            classes: random.pick(&[1, 2, 4, 8, 32]),
            takes_percent: random.pick(&[0, 5, 20, 50, 80, 100]),
            lowest_grade,
            highest_grade: random.pick(&[100, 100, lowest_grade, (lowest_grade + 3).min(100)]),
        }
    }

    fn grade(&self, random: &mut Random) -> u8 {
        random.between(self.lowest_grade, self.highest_grade) as u8
    }

    fn class(&self, random: &mut Random) -> u8 {
        random.below(self.classes) as u8
    }

    fn taken(&self, random: &mut Random) -> u32 {
        let mut taken = 0;
        for class in 0..32 {
            taken |= u32::from(random.chance(self.takes_percent)) << class;
        }
        taken
    }

    fn record(&self, random: &mut Random, house: bool) -> Record {
        let class = self.class(random);
        let grade = self.grade(random);
        if house {
            return Record::house(class, grade);
        }
        let least = self.grade(random);
        Record::member(class, grade, least, self.taken(random))
    }
}

/// Weeks up to the greatest; edges and a byte of 0 come often.
fn random_weeks(random: &mut Random) -> u16 {
    match random.below(3) {
        0 => random.pick(&[0, 1, GREATEST_WEEKS - 1, GREATEST_WEEKS]),
        1 => random.pick(&[255, 256, 512, 768]),
        _ => random.between(0, GREATEST_WEEKS.into()) as u16,
    }
}

/// Weeks for so many places, houses too: all 0, all equal, only 0 and the greatest, so few
/// that many sums are equal, or any.
pub fn weeks_of_places(random: &mut Random, places: usize) -> Vec<u16> {
    let equal = random_weeks(random);
    let sort = random.below(8);
    let weeks = |_| match sort {
        0 => 0,
        1 => equal,
        2 | 3 => random.pick(&[0, GREATEST_WEEKS]),
        4 | 5 => random.pick(&[0, 1, 2]),
        _ => random_weeks(random),
    };
    (0..places).map(weeks).collect()
}

/// Any machine number but 0; edges and a byte of 0 come often.
fn random_machine(random: &mut Random) -> u16 {
    match random.below(4) {
        0 => random.pick(&[1, 255, 256, GREATEST_WEEKS + 1, 65_280, u16::MAX]),
        1 => random.between(1, 255) as u16,
        2 => (random.between(1, 255) as u16) << 8,
        _ => random.between(1, u16::MAX.into()) as u16,
    }
}

/// Puts other weeks and machine numbers, all of them different, into the records.
pub fn draw_weeks_and_machines(random: &mut Random, records: &mut [Record]) {
    let mut machines = Vec::new();
    for record in records {
        record.weeks = random_weeks(random);
        record.machine = random_machine(random);
        while machines.contains(&record.machine) {
            record.machine = random_machine(random);
        }
        machines.push(record.machine);
    }
}

/// Faultless records, houses first.
pub fn random_records(random: &mut Random, places: usize, houses: usize) -> Vec<Record> {
    let fields = Fields::random(random);
    let mut records: Vec<Record> = (0..places)
        .map(|place| fields.record(random, place < houses))
        .collect();
    draw_weeks_and_machines(random, &mut records);
    records
}

/// A faultless pool of a random number of houses.
pub fn random_pool(random: &mut Random, places: usize) -> Vec<u8> {
    let houses = random.between(0, places);
    bytes_of(&random_records(random, places, houses))
}

/// Puts a random value into a random byte.
pub fn damage(random: &mut Random, pool: &mut [u8]) {
    let at = random.below(pool.len());
    pool[at] = random.byte();
}

/// Records with just these arcs: place u gives class u, so every list of arcs
/// into members can be had.
pub fn records_of_arcs(houses: usize, gives: &[Vec<usize>]) -> Vec<Record> {
    let record = |place: usize| {
        if place < houses {
            return Record::house(place as u8, 50);
        }
        let givers = (0..gives.len()).filter(|&giver| gives[giver].contains(&place));
        Record::member(place as u8, 50, 50, givers.map(|giver| 1 << giver).sum())
    };
    numbered((0..gives.len()).map(record))
}

/// The pool of those records.
pub fn bytes_of_arcs(houses: usize, gives: &[Vec<usize>]) -> Vec<u8> {
    bytes_of(&records_of_arcs(houses, gives))
}

/// Each arc into a member with the given chance, arcs of a place to itself with their own.
pub fn random_arcs(
    random: &mut Random,
    places: usize,
    houses: usize,
    percent: usize,
    self_percent: usize,
) -> Vec<Vec<usize>> {
    let mut gives = vec![Vec::new(); places];
    for (giver, takers) in gives.iter_mut().enumerate() {
        for taker in houses..places {
            let chance = if giver == taker {
                self_percent
            } else {
                percent
            };
            if random.chance(chance) {
                takers.push(taker);
            }
        }
    }
    gives
}

/// One ring through all members in their order, houses giving to the first of them.
pub fn one_ring(places: usize, houses: usize) -> Vec<Vec<usize>> {
    let next = |place: usize| {
        if place < houses || place + 1 == places {
            houses
        } else {
            place + 1
        }
    };
    let takers = |place: usize| {
        if houses < places {
            vec![next(place)]
        } else {
            Vec::new()
        }
    };
    (0..places).map(takers).collect()
}

/// Arcs of any density, with and without places that give to themselves.
pub fn random_shape(random: &mut Random, places: usize, houses: usize) -> Vec<Vec<usize>> {
    if random.chance(10) {
        return one_ring(places, houses);
    }
    let percent = random.pick(&[0, 10, 20, 35, 50, 75, 100]);
    let self_percent = random.pick(&[0, 0, 30, 100]);
    random_arcs(random, places, houses, percent, self_percent)
}

/// Every arc into a member, for every place or all but from a place to itself.
pub fn all_arcs(places: usize, houses: usize, to_itself: bool) -> Vec<Vec<usize>> {
    let takers = |giver: usize| {
        let members = houses..places;
        members
            .filter(|&taker| to_itself || taker != giver)
            .collect()
    };
    (0..places).map(takers).collect()
}

/// Each place gives to all above it, so nothing comes round.
pub fn rising_arcs(places: usize) -> Vec<Vec<usize>> {
    (0..places)
        .map(|giver| (giver + 1..places).collect())
        .collect()
}

/// All of a layer give to all of the next, the last layer to the first.
pub fn layers(layers: usize, size: usize) -> Vec<Vec<usize>> {
    let takers = |giver: usize| {
        let next = (giver / size + 1) % layers;
        (next * size..(next + 1) * size).collect()
    };
    (0..layers * size).map(takers).collect()
}
