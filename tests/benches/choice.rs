//! The choice of the plan by itself, over filled tables, and the pools for which its
//! search is long. It needs one more call for C than the library has: `choice.sh`
//! makes it in a copy of the repository and runs this.

use swapboard_tests::baseline::plan::{write_plan, Filled, Scratch};
use swapboard_tests::baseline::tables::{fill_best, fill_exchanges};
use swapboard_tests::bench_pools::{pools_of_fourteen, pools_of_six, BenchPool};
use swapboard_tests::layout::{GREATEST_WEEKS, MOST_PLACES};
use swapboard_tests::oracle::exchange::Limits;
use swapboard_tests::oracle::plan::record_form;
use swapboard_tests::oracle::pool::Pool;
use swapboard_tests::pools::{random_arcs, PoolValue};
use swapboard_tests::random::Random;
use swapboard_tests::samples::pool_with;
use swapboard_tests::search::{search, Found};
use swapboard_tests::timing::{print_heading, print_row};

const ENTRIES: usize = 1 << MOST_PLACES;

/// The houses and the limits of each climb, and the changes that it tries.
const CLIMBS: [(usize, u8, u8); 6] = [
    (0, 14, 14),
    (1, 14, 14),
    (0, 9, 0),
    (1, 1, 9),
    (2, 3, 12),
    (1, 13, 8),
];
const STEPS: usize = 900;

extern "C" {
    fn swap_write_plan(
        places: u8,
        houses: u8,
        gives: *const u16,
        weeks: *const u16,
        lc: u8,
        lp: u8,
        exchanges: *const u16,
        exchanges_len: usize,
        best: *const u32,
        best_len: usize,
        plan: *mut u8,
        plan_len: usize,
    ) -> usize;
}

/// A pool with its filled tables.
struct Case {
    value: PoolValue,
    limits: Limits,
    exchanges: Vec<u16>,
    worth: Vec<u32>,
    best: Vec<u32>,
}

impl Case {
    fn new(pool: &Pool, limits: Limits) -> Self {
        let mut case = Case {
            value: pool.value(),
            limits,
            exchanges: vec![0; ENTRIES],
            worth: vec![0; ENTRIES],
            best: vec![0; ENTRIES],
        };
        case.fill();
        case
    }

    fn fill(&mut self) {
        let Limits { lc, lp } = self.limits;
        let exchanges = fill_exchanges(&self.value, lc, lp, &mut self.exchanges);
        let best = fill_best(
            &self.value,
            &self.exchanges,
            &mut self.worth,
            &mut self.best,
        );
        assert!(exchanges.is_ok() && best.is_ok());
    }

    /// Returns the number of records.
    fn write_plan(&self, plan: &mut [u8]) -> usize {
        // SAFETY: `gives` and `weeks` have 14 entries each; the others are live slices, the plan
        // lent alone. The call needs tables filled for the pool and the limits, and they are.
        unsafe {
            swap_write_plan(
                self.value.places,
                self.value.houses,
                self.value.gives.as_ptr(),
                self.value.weeks.as_ptr(),
                self.limits.lc,
                self.limits.lp,
                self.exchanges.as_ptr(),
                self.exchanges.len(),
                self.best.as_ptr(),
                self.best.len(),
                plan.as_mut_ptr(),
                plan.len(),
            )
        }
    }

    fn search(&self) -> Found {
        search(&self.value, self.limits, &self.exchanges, &self.best)
    }
}

fn choice(title: &str, pools: &[BenchPool]) {
    print_heading(title);
    for BenchPool { name, pool, limits } in pools {
        time_choice(name, pool, &Case::new(pool, *limits));
    }
}

/// The plans of both, and that of the search that is counted, are the same bytes.
fn time_choice(name: &str, pool: &Pool, case: &Case) {
    let filled = Filled::new(&case.value, &case.worth, &case.best);
    let mut scratch = Scratch::default();
    let mut plan = vec![0; 16 * MOST_PLACES];
    let mut beside = vec![0; 16 * MOST_PLACES];
    let mut records = (0, 0);
    print_row(
        name,
        || records.0 = case.write_plan(&mut plan),
        || records.1 = write_plan(&filled, &mut scratch, &mut beside).1,
    );
    assert_eq!(records.0, records.1);
    assert_eq!(plan, beside);
    assert_eq!(
        plan[..16 * records.0],
        record_form(pool, &case.search().plan)
    );
}

/// One arc, or the weeks of one member.
fn change(random: &mut Random, value: &mut PoolValue) {
    let member = random.between(value.houses.into(), MOST_PLACES - 1);
    if random.chance(70) {
        value.gives[random.below(MOST_PLACES)] ^= 1 << member;
    } else {
        value.weeks[member] = random.between(0, GREATEST_WEEKS.into()) as u16;
    }
}

/// Single arcs and weeks are changed while the search does not get shorter.
fn climb(random: &mut Random, houses: usize, limits: Limits) -> Case {
    let percent = random.between(30, 95);
    let gives = random_arcs(random, MOST_PLACES, houses, percent, 0);
    let mut case = Case::new(&pool_with(MOST_PLACES, houses, gives), limits);
    let mut longest = case.search().entered;
    for _ in 0..STEPS {
        let before = case.value;
        change(random, &mut case.value);
        case.fill();
        let entered = case.search().entered;
        if entered < longest {
            case.value = before;
        } else {
            longest = entered;
        }
    }
    case.fill();
    case
}

/// The same climbs on every machine. The arcs and weeks of the longest search are printed, to
/// be kept among the pools where it is longer than theirs.
fn worst_by_climbing() {
    print_heading("Choice of the plan, 14 places, found by climbing");
    let mut climbed = Vec::new();
    for (seed, (houses, lc, lp)) in CLIMBS.into_iter().enumerate() {
        let random = &mut Random::new(seed as u64);
        let case = climb(random, houses, Limits::new(lc, lp));
        let pool = Pool::of_value(&case.value).expect("a faultless pool");
        let entered = case.search().entered;
        let name = format!("houses {houses}, pairs {entered}, at {lc} {lp}");
        time_choice(&name, &pool, &case);
        climbed.push((entered, pool));
    }
    let worst = climbed.into_iter().max_by_key(|(entered, _)| *entered);
    println!("\nThe longest search: {worst:?}");
}

fn main() {
    choice("Choice of the plan, 14 places", &pools_of_fourteen());
    choice("Choice of the plan, 6 places", &pools_of_six());
    worst_by_climbing();
}
