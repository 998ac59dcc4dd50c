//! Clearing, checking and reading, through the C interface and by the baseline.

use swapboard_tests::baseline;
use swapboard_tests::baseline::clear::Workspace;
use swapboard_tests::bench_pools::{pools_of_fourteen, pools_of_six, BenchPool};
use swapboard_tests::calls;
use swapboard_tests::layout::MOST_PLACES;
use swapboard_tests::oracle::exchange::Limits;
use swapboard_tests::pools::PoolValue;
use swapboard_tests::samples::bytes_of_pool;
use swapboard_tests::timing::{print_heading, print_row};

const ENTRIES: usize = 1 << MOST_PLACES;

/// Reading and checking rest on few things: these pools are enough for them.
const READ: usize = 6;

/// Tables and plan of one side, enough for every pool.
struct Buffers {
    exchanges: Vec<u16>,
    best: Vec<u32>,
    plan: Vec<u8>,
}

impl Buffers {
    fn new() -> Self {
        Buffers {
            exchanges: vec![0; ENTRIES],
            best: vec![0; ENTRIES],
            plan: vec![0; 16 * MOST_PLACES],
        }
    }

    /// Returns the number of records.
    fn clear(&mut self, pool: &[u8], limits: Limits) -> usize {
        let Buffers {
            exchanges,
            best,
            plan,
        } = self;
        let answer = calls::clear(pool, limits, exchanges, best, plan);
        assert_eq!(answer.number, 0);
        answer.second as usize
    }

    fn clear_by_baseline(&mut self, pool: &[u8], limits: Limits, workspace: &mut Workspace) {
        let Buffers {
            exchanges,
            best,
            plan,
        } = self;
        let Limits { lc, lp } = limits;
        let cleared = baseline::clear::clear(pool, lc, lp, exchanges, best, plan, workspace);
        assert!(cleared.is_ok());
    }
}

fn clearing(title: &str, pools: &[BenchPool]) {
    print_heading(title);
    let workspace = &mut Workspace::default();
    for BenchPool { name, pool, limits } in pools {
        let bytes = bytes_of_pool(pool);
        let mut called = Buffers::new();
        let mut beside = Buffers::new();
        print_row(
            name,
            || {
                called.clear(&bytes, *limits);
            },
            || beside.clear_by_baseline(&bytes, *limits, workspace),
        );
        assert_eq!(called.plan, beside.plan);
    }
}

fn checking(pools: &[BenchPool]) {
    print_heading("Checking a plan, 14 places");
    for BenchPool { name, pool, limits } in pools {
        let bytes = bytes_of_pool(pool);
        let mut buffers = Buffers::new();
        let records = buffers.clear(&bytes, *limits);
        let plan = &buffers.plan[..16 * records];
        let Limits { lc, lp } = *limits;
        print_row(
            name,
            || assert_eq!(calls::check(&bytes, *limits, plan).number, 0),
            || assert!(baseline::check::check(&bytes, lc, lp, plan).is_ok()),
        );
    }
}

fn reading(pools: &[BenchPool]) {
    print_heading("Reading a pool, 14 places");
    for BenchPool { name, pool, .. } in pools {
        let bytes = bytes_of_pool(pool);
        let mut gives = [0; MOST_PLACES];
        let mut weeks = [0; MOST_PLACES];
        let mut read = None;
        print_row(
            name,
            || assert_eq!(calls::read_pool(&bytes, &mut gives, &mut weeks).number, 0),
            || read = baseline::pool::read_pool(&bytes).ok(),
        );
        let same = |value: PoolValue| (value.gives, value.weeks) == (gives, weeks);
        assert!(read.is_some_and(same));
    }
}

fn main() {
    let fourteen = pools_of_fourteen();
    clearing("Clearing, 14 places", &fourteen);
    clearing("Clearing, 6 places", &pools_of_six());
    checking(&fourteen[..READ]);
    reading(&fourteen[..READ]);
}
