//! What sets of places hold: members, and between equal members their weeks.

use super::pool::Pool;
use std::iter::Sum;
use std::ops::Add;

/// Compared field by field: members first, weeks only where members are equal.
#[derive(Clone, Copy, Debug, Default, PartialEq, Eq, PartialOrd, Ord)]
pub struct Held {
    pub members: u16,
    pub weeks: u16,
}

impl Held {
    /// "A house's weeks count nowhere."
    pub fn by(pool: &Pool, places: &[usize]) -> Self {
        let members = places.iter().filter(|&&place| pool.is_member(place));
        members.map(|&member| Held::by_member(pool, member)).sum()
    }

    fn by_member(pool: &Pool, member: usize) -> Self {
        Held {
            members: 1,
            weeks: pool.weeks[member],
        }
    }

    /// "32-bit entries holding the greatest members × 65,536 + weeks."
    pub fn entry(self) -> u32 {
        u32::from(self.members) * 65_536 + u32::from(self.weeks)
    }
}

impl Add for Held {
    type Output = Held;

    fn add(self, other: Held) -> Held {
        Held {
            members: self.members + other.members,
            weeks: self.weeks + other.weeks,
        }
    }
}

impl Sum for Held {
    fn sum<I: Iterator<Item = Held>>(parts: I) -> Held {
        parts.fold(Held::default(), Held::add)
    }
}
