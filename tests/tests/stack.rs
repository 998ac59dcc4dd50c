//! The stack that is promised to be enough for a call.

use std::thread;
use swapboard_tests::bench_pools::{pools_of_fourteen, BenchPool};
use swapboard_tests::calls::{check, clear, fill_best, fill_exchanges, read_pool};
use swapboard_tests::samples::bytes_of_pool;

const STACK: usize = 128 * 1024;

/// A thread of that size makes every call, on pools for which the search goes fourteen
/// deep; one that overruns it ends the test.
#[test]
fn stack_of_the_calls() {
    let mut exchanges = vec![0; 16384];
    let mut best = vec![0; 16384];
    let mut plan = vec![0; 224];
    for BenchPool { name, pool, limits } in pools_of_fourteen() {
        let bytes = bytes_of_pool(&pool);
        let mut value = pool.value();
        let calls = || {
            let read = read_pool(&bytes, &mut value.gives, &mut value.weeks);
            let exchanged = fill_exchanges(&value, limits, &mut exchanges);
            let filled = fill_best(&value, &exchanges, &mut best);
            let cleared = clear(&bytes, limits, &mut exchanges, &mut best, &mut plan);
            let records = &plan[..16 * cleared.second as usize];
            let checked = check(&bytes, limits, records);
            [read, exchanged, filled, cleared, checked].map(|answer| answer.number)
        };
        let numbers = thread::scope(|scope| {
            let thread = thread::Builder::new().stack_size(STACK);
            thread.spawn_scoped(scope, calls).unwrap().join().unwrap()
        });
        assert_eq!(numbers, [0; 5], "{name}");
    }
}
