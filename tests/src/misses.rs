//! Plans that miss being legal or in record form by one thing, at a known record.

use crate::oracle::exchange::Limits;
use crate::oracle::plan::{record, record_form, Plan};
use crate::oracle::pool::Pool;
use crate::random::Random;

/// Plan bytes with the refusal they must meet.
#[derive(Clone, Debug)]
pub struct Miss {
    pub limits: Limits,
    pub plan: Vec<u8>,
    pub number: u64,
    pub at: usize,
}

/// A legal plan in rising order of first place, altered in one record.
struct Misses<'a> {
    pool: &'a Pool,
    limits: Limits,
    plan: &'a Plan,
    at: usize,
    found: Vec<Miss>,
}

/// Near misses of every number from 12 to 17 at the record `at`.
pub fn misses_at(
    random: &mut Random,
    pool: &Pool,
    limits: Limits,
    plan: &Plan,
    at: usize,
) -> Vec<Miss> {
    let mut misses = Misses {
        pool,
        limits,
        plan,
        at,
        found: Vec::new(),
    };
    misses.no_list(random);
    misses.met_before(random);
    misses.out_of_order();
    misses.arc_missing(random);
    misses.wrong_length();
    misses.wrong_kind_or_count();
    misses.found
}

impl Misses<'_> {
    fn list(&self) -> &[usize] {
        &self.plan[self.at]
    }

    fn first(&self) -> usize {
        self.list()[0]
    }

    /// The plan's bytes with one byte of this record altered.
    fn with_byte(&mut self, number: u64, at_byte: usize, byte: u8) {
        let mut bytes = record_form(self.pool, self.plan);
        bytes[16 * self.at + at_byte] = byte;
        self.push(number, bytes);
    }

    /// The plan's bytes with another list in this record, its kind and count right.
    fn with_list(&mut self, number: u64, list: &[usize]) {
        let mut bytes = record_form(self.pool, self.plan);
        bytes[16 * self.at..][..16].copy_from_slice(&record(self.pool, list));
        self.push(number, bytes);
    }

    fn push(&mut self, number: u64, plan: Vec<u8>) {
        self.push_at_limits(self.limits, number, plan);
    }

    fn push_at_limits(&mut self, limits: Limits, number: u64, plan: Vec<u8>) {
        let miss = Miss {
            limits,
            plan,
            number,
            at: self.at,
        };
        self.found.push(miss);
    }

    /// This record's list with a place behind it, where there is room.
    fn longer_by(&self, place: usize) -> Option<Vec<usize>> {
        let longer = [self.list(), &[place]].concat();
        (longer.len() <= 14).then_some(longer)
    }

    /// Whether no record up to this one lists the place.
    fn unmet(&self, place: usize) -> bool {
        !self.plan[..=self.at].iter().flatten().any(|&v| v == place)
    }

    fn unmet_places(&self) -> Vec<usize> {
        (0..self.pool.places).filter(|&v| self.unmet(v)).collect()
    }

    fn no_list(&mut self, random: &mut Random) {
        let length = self.list().len();
        self.with_byte(12, 0, 255);
        let beyond = random.between(self.pool.places, 254) as u8;
        for byte in [self.pool.places as u8, beyond, 254] {
            for at_byte in 0..14 {
                self.with_byte(12, at_byte, byte);
            }
        }
        for at_byte in length + 1..14 {
            let place = random.below(self.pool.places) as u8;
            self.with_byte(12, at_byte, place);
        }
        for at_byte in 0..length - 1 {
            self.with_byte(12, at_byte, 255);
        }
    }

    fn met_before(&mut self, random: &mut Random) {
        for again in self.list().to_vec() {
            if let Some(list) = self.longer_by(again) {
                self.with_list(13, &list);
            }
        }
        let earlier: Vec<usize> = self.plan[..self.at].concat();
        for &met in &earlier {
            let at_byte = random.below(self.list().len());
            self.with_byte(13, at_byte, met as u8);
            if let Some(list) = self.longer_by(met) {
                self.with_list(13, &list);
            }
        }
    }

    fn out_of_order(&mut self) {
        for start in 1..self.list().len() {
            let mut rotated = self.list().to_vec();
            rotated.rotate_left(start);
            if self.pool.is_member(self.first()) {
                self.with_list(14, &rotated);
            }
        }
        for place in self.unmet_places() {
            if place < self.first() {
                if let Some(list) = self.longer_by(place) {
                    self.with_list(14, &list);
                }
            }
        }
        if self.at > 0 {
            let form = record_form(self.pool, self.plan);
            let mut records: Vec<&[u8]> = form.chunks(16).collect();
            records.swap(self.at, self.at - 1);
            self.push(14, records.concat());
        }
    }

    fn arc_missing(&mut self, random: &mut Random) {
        let first = self.first();
        let later = self.unmet_places().into_iter().filter(|&v| v > first);
        let mut lists: Vec<Vec<usize>> = later.filter_map(|v| self.longer_by(v)).collect();
        let mut shuffled = self.list().to_vec();
        random.shuffle(&mut shuffled[1..]);
        lists.push(shuffled);
        for list in lists {
            if self.lacks_arc(&list) {
                self.with_list(15, &list);
            }
        }
    }

    fn lacks_arc(&self, list: &[usize]) -> bool {
        let ring = self.pool.is_member(list[0]);
        let closed = !ring || self.pool.has_arc(list[list.len() - 1], list[0]);
        let mut pairs = list.windows(2);
        !closed || pairs.any(|pair| !self.pool.has_arc(pair[0], pair[1]))
    }

    /// A limit one below this record's members, unless an earlier record would
    /// meet it first, and a chain's house alone.
    fn wrong_length(&mut self) {
        let members = self.pool.members_in(self.list());
        let chain = self.pool.is_house(self.first());
        let same_sort = |list: &&Vec<usize>| self.pool.is_house(list[0]) == chain;
        let mut earlier = self.plan[..self.at].iter().filter(same_sort);
        if earlier.all(|list| self.pool.members_in(list) < members) {
            let mut limits = self.limits;
            let limit = if chain {
                &mut limits.lp
            } else {
                &mut limits.lc
            };
            *limit = members as u8 - 1;
            self.push_at_limits(limits, 16, record_form(self.pool, self.plan));
        }
        if chain {
            self.with_list(16, &[self.first()]);
        }
    }

    fn wrong_kind_or_count(&mut self) {
        let right = record(self.pool, self.list());
        for at_byte in [14, 15] {
            for byte in (0..=255).filter(|&byte| byte != right[at_byte]) {
                self.with_byte(17, at_byte, byte);
            }
        }
    }
}
