//! Both filling calls, through the C interface and by the baseline, the best table also by
//! plain Rust.

use swapboard_tests::baseline::{plain, tables as baseline};
use swapboard_tests::bench_pools::{bench_marks, pools_of_fourteen, pools_of_six, BenchPool};
use swapboard_tests::calls::{fill_best, fill_exchanges};
use swapboard_tests::layout::MOST_PLACES;
use swapboard_tests::oracle::exchange::Limits;
use swapboard_tests::pools::PoolValue;
use swapboard_tests::refusal::Refusal;
use swapboard_tests::samples::nobody_gives;
use swapboard_tests::timing::{print_heading, print_heading_of, print_row, print_row_of};

/// Enough for every pool.
const ENTRIES: usize = 1 << MOST_PLACES;

fn exchange_tables(title: &str, pools: &[BenchPool]) {
    print_heading(title);
    for BenchPool { name, pool, limits } in pools {
        time_exchanges(name, &pool.value(), *limits);
    }
}

/// The sets that the limits allow decide how much there is to fill.
fn exchange_tables_at_every_limit(pools: &[BenchPool]) {
    print_heading("Exchange table, 14 places, one pool at every limit");
    let medium = pools[1].pool.value();
    for limit in 0..=14 {
        let name = format!("{limit} {limit}");
        time_exchanges(&name, &medium, Limits::new(limit, limit));
    }
}

fn time_exchanges(name: &str, pool: &PoolValue, limits: Limits) {
    let mut table = vec![0; ENTRIES];
    let mut beside = vec![0; ENTRIES];
    print_row(
        name,
        || assert_eq!(fill_exchanges(pool, limits, &mut table).number, 0),
        || fill_baseline(pool, limits, &mut beside),
    );
    assert_eq!(table, beside);
}

fn best_tables(title: &str, pools: &[BenchPool], places: usize) {
    print_heading_of(title, ["tuned", "plain"]);
    for BenchPool { name, pool, limits } in pools {
        let value = pool.value();
        let mut exchanges = vec![0; ENTRIES];
        fill_baseline(&value, *limits, &mut exchanges);
        time_best(name, &value, &exchanges);
    }
    let members = nobody_gives(places, 0).value();
    for (name, marks) in bench_marks(places) {
        time_best(name, &members, &marks);
    }
}

type FillBest = fn(&PoolValue, &[u16], &mut [u32], &mut [u32]) -> Result<(usize, u64), Refusal>;

/// A best table with what filling it needs and returns.
struct Best {
    table: Vec<u32>,
    worth: Vec<u32>,
    tried: u64,
}

impl Best {
    fn new() -> Self {
        Best {
            table: vec![0; ENTRIES],
            worth: vec![0; ENTRIES],
            tried: 0,
        }
    }

    fn fill(&mut self, pool: &PoolValue, exchanges: &[u16]) {
        let answer = fill_best(pool, exchanges, &mut self.table);
        assert_eq!(answer.number, 0);
        self.tried = answer.second;
    }

    fn fill_beside(&mut self, fill_best: FillBest, pool: &PoolValue, exchanges: &[u16]) {
        let filled = fill_best(pool, exchanges, &mut self.worth, &mut self.table);
        self.tried = filled.expect("a pool and enough room").1;
    }

    fn result(&self) -> (&[u32], u64) {
        (&self.table, self.tried)
    }
}

fn time_best(name: &str, pool: &PoolValue, exchanges: &[u16]) {
    let [mut best, mut tuned, mut plain] = [(); 3].map(|_| Best::new());
    print_row_of(
        name,
        [
            &mut || best.fill(pool, exchanges),
            &mut || tuned.fill_beside(baseline::fill_best, pool, exchanges),
            &mut || plain.fill_beside(plain::fill_best, pool, exchanges),
        ],
    );
    assert_eq!(best.result(), tuned.result());
    assert_eq!(best.result(), plain.result());
}

fn fill_baseline(pool: &PoolValue, limits: Limits, table: &mut [u16]) {
    assert!(baseline::fill_exchanges(pool, limits.lc, limits.lp, table).is_ok());
}

fn main() {
    let fourteen = pools_of_fourteen();
    let six = pools_of_six();
    exchange_tables("Exchange table, 14 places", &fourteen);
    exchange_tables_at_every_limit(&fourteen);
    exchange_tables("Exchange table, 6 places", &six);
    best_tables("Best table, 14 places", &fourteen, 14);
    best_tables("Best table, 6 places", &six, 6);
}
