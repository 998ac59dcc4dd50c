//! The choice of the plan by a search depth first, and how much it looks at.

use crate::baseline::pool::{givers_of, places_in};
use crate::layout::MOST_PLACES;
use crate::oracle::exchange::Limits;
use crate::oracle::plan::Plan;
use crate::pools::PoolValue;

/// A plan with the number of pairs (set, last place) that the search entered.
#[derive(Default)]
pub struct Found {
    pub plan: Plan,
    pub entered: usize,
}

/// The plan over filled tables.
pub fn search(pool: &PoolValue, limits: Limits, exchanges: &[u16], best: &[u32]) -> Found {
    let mut found = Found::default();
    let mut free = (1 << pool.places) - 1;
    while best[free] > 0 {
        let mut round = Round::new(pool, limits, exchanges, best, free);
        let first = free.trailing_zeros() as usize;
        free &= free - 1;
        if round.seek(1 << first, first) {
            for &place in &round.path {
                free &= !(1 << place);
            }
            found.plan.push(round.path);
        }
        found.entered += round.entered;
    }
    found
}

/// The search for the exchange that begins at the lowest free place.
struct Round<'a> {
    pool: &'a PoolValue,
    exchanges: &'a [u16],
    best: &'a [u32],
    free: usize,
    /// The most places of the exchange, and those where it may end.
    most: u32,
    goal: u16,
    /// For each set the places to which a path through it went on in vain.
    dead: Vec<u16>,
    path: Vec<usize>,
    entered: usize,
}

impl<'a> Round<'a> {
    fn new(
        pool: &'a PoolValue,
        limits: Limits,
        exchanges: &'a [u16],
        best: &'a [u32],
        free: usize,
    ) -> Self {
        let first = free.trailing_zeros() as usize;
        let (most, goal) = if first < usize::from(pool.houses) {
            (limits.lp + 1, u16::MAX)
        } else {
            (limits.lc, givers_of(pool)[first])
        };
        Round {
            pool,
            exchanges,
            best,
            free,
            most: most.into(),
            goal,
            dead: vec![0; 1 << MOST_PLACES],
            path: vec![first],
            entered: 0,
        }
    }

    /// Completes the path through just this set, the lowest way on first and going on
    /// before ending.
    fn seek(&mut self, set: usize, last: usize) -> bool {
        self.entered += 1;
        let open = (self.free & !set) as u16;
        if set.count_ones() < self.most && self.goal & open != 0 {
            for next in places_in(self.pool.gives[last] & open & !self.dead[set]) {
                self.path.push(next);
                if self.seek(set | 1 << next, next) {
                    return true;
                }
                self.path.pop();
                self.dead[set] |= 1 << next;
            }
        }
        self.may_end(set, last)
    }

    fn may_end(&self, set: usize, last: usize) -> bool {
        let behind = self.best[self.free ^ set];
        let keeps_best = worth(self.pool, set) + behind == self.best[self.free];
        keeps_best && self.exchanges[set] >> last & 1 == 1
    }
}

/// The set's members and their weeks as an entry of the best table counts them.
fn worth(pool: &PoolValue, set: usize) -> u32 {
    let members = set >> pool.houses << pool.houses;
    let weeks = places_in(members as u16).map(|member| u32::from(pool.weeks[member]));
    members.count_ones() * 65_536 + weeks.sum::<u32>()
}
