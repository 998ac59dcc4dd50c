//! The pools of the benchmarks, each with the limits it is cleared at.

use crate::layout::GREATEST_WEEKS;
use crate::marks::marks_where;
use crate::oracle::exchange::Limits;
use crate::oracle::pool::{places_of, read, Pool};
use crate::pools::{
    all_arcs, bytes_of, layers, numbered, one_ring, random_arcs, rising_arcs, Record,
};
use crate::random::Random;
use crate::samples::pool_with;

type Arcs = Vec<Vec<usize>>;

#[derive(Clone)]
pub struct BenchPool {
    pub name: String,
    pub pool: Pool,
    pub limits: Limits,
}

/// Of weeks 0, so that only bytes decide between the plans that serve most.
fn bench_pool(name: &str, houses: usize, gives: Arcs, lc: u8, lp: u8) -> BenchPool {
    BenchPool {
        name: format!("{name}, at {lc} {lp}"),
        pool: pool_with(gives.len(), houses, gives),
        limits: Limits::new(lc, lp),
    }
}

/// Each with weeks of its own, so that they decide too.
fn that_wait(random: &mut Random, mut pools: Vec<BenchPool>) -> Vec<BenchPool> {
    for BenchPool { name, pool, .. } in &mut pools {
        let greatest = GREATEST_WEEKS.into();
        let weeks = || random.between(0, greatest) as u16;
        pool.weeks.fill_with(weeks);
        *name += ", weeks";
    }
    pools
}

pub fn pools_of_fourteen() -> Vec<BenchPool> {
    [
        random_pools(),
        shops(),
        pools_without_exchange(),
        complete_pools(),
        short_limits(),
        long_rings(),
        chains(),
        long_searches(),
        pools_that_wait(),
    ]
    .into_iter()
    .flatten()
    .collect()
}

fn random_pools() -> Vec<BenchPool> {
    let random = &mut Random::new(1);
    let mut arcs = |percent| random_arcs(random, 14, 2, percent, 0);
    vec![
        bench_pool("sparse, 15 of 100 arcs, 2 houses", 2, arcs(15), 3, 4),
        bench_pool("medium, 35 of 100 arcs, 2 houses", 2, arcs(35), 14, 14),
        bench_pool("dense, 60 of 100 arcs, 2 houses", 2, arcs(60), 3, 4),
        bench_pool("complete, 2 houses", 2, arcs(100), 7, 6),
    ]
}

/// Real looking pools: six classes, each member takes two of them, grades matter.
fn shops() -> Vec<BenchPool> {
    let random = &mut Random::new(2);
    let mut shop = |houses| {
        let record = |place| {
            let class = random.below(6) as u8;
            let grade = random.between(40, 100) as u8;
            if place < houses {
                return Record::house(class, grade);
            }
            let taken = 1 << random.below(6) | 1 << random.below(6);
            Record::member(class, grade, random.between(0, 70) as u8, taken)
        };
        let records = numbered((0..14).map(record));
        read(&bytes_of(&records)).expect("faultless records").gives
    };
    vec![
        bench_pool("shop, 1 house", 1, shop(1), 3, 4),
        bench_pool("shop, 4 houses", 4, shop(4), 3, 4),
    ]
}

fn pools_without_exchange() -> Vec<BenchPool> {
    vec![
        bench_pool("no exchange, rising arcs", 0, rising_arcs(14), 14, 14),
        bench_pool("no exchange, 7 layers of 2", 0, layers(7, 2), 6, 6),
        bench_pool("nothing allowed, complete", 2, all_arcs(14, 2, true), 0, 0),
    ]
}

fn complete_pools() -> Vec<BenchPool> {
    let mut alone = all_arcs(13, 0, false);
    alone.push(Vec::new());
    vec![
        bench_pool("complete, no house", 0, all_arcs(14, 0, false), 14, 14),
        bench_pool("complete, 4 houses", 4, all_arcs(14, 4, false), 14, 14),
        bench_pool("complete, also to itself", 0, all_arcs(14, 0, true), 14, 14),
        bench_pool("complete but for one alone", 0, alone, 14, 14),
    ]
}

fn short_limits() -> Vec<BenchPool> {
    let all = || all_arcs(14, 0, false);
    vec![
        bench_pool("complete, no house", 0, all(), 2, 0),
        bench_pool("complete, no house", 0, all(), 3, 0),
        bench_pool("two sides of 7", 0, layers(2, 7), 2, 0),
        bench_pool("only 4 houses give", 4, houses_give(14, 4), 3, 4),
        bench_pool("7 layers of 2", 0, layers(7, 2), 7, 7),
        bench_pool("three sides of 5, 5 and 4", 0, three_sides(), 3, 0),
    ]
}

fn long_rings() -> Vec<BenchPool> {
    let ring = || one_ring(14, 0);
    vec![
        bench_pool("one ring of 14", 0, ring(), 14, 14),
        bench_pool("one ring of 14, shuffled", 0, shuffled_ring(), 14, 14),
        bench_pool("one ring of 14", 0, ring(), 13, 13),
    ]
}

fn chains() -> Vec<BenchPool> {
    let random = &mut Random::new(3);
    let mut arcs = |houses| random_arcs(random, 14, houses, 35, 0);
    vec![
        bench_pool("1 house, path of 13", 1, path(14), 0, 13),
        bench_pool("1 house, rising arcs", 1, rising_arcs(14), 0, 13),
        bench_pool("1 house, complete", 1, all_arcs(14, 1, false), 0, 13),
        bench_pool("1 house, 35 of 100 arcs", 1, arcs(1), 14, 14),
        bench_pool("4 houses, 35 of 100 arcs", 4, arcs(4), 10, 10),
    ]
}

/// The arcs of the pool for which a search through the paths of the lowest place, the
/// lowest way first, was longest of those found by climbing (`benches/choice.rs`): it
/// enters 48,181 pairs of a set and a last place, and there are 53,249.
const LONGEST_SEARCH: [u16; 14] = [
    0x3FFE, 0x3FFE, 0x07FA, 0x07F6, 0x3FF6, 0x3FFE, 0x07BE, 0x077E, 0x06FE, 0x3FFE, 0x03FE, 0x07FE,
    0x0FFE, 0x1FFE,
];

fn long_searches() -> Vec<BenchPool> {
    let climbed = LONGEST_SEARCH.map(|set| places_of(set.into())).to_vec();
    vec![
        bench_pool("last way is the one, 1 house", 1, last_way(), 14, 14),
        bench_pool("first place leads nowhere", 0, no_way_back(), 14, 14),
        bench_pool("worst found by climbing, 1 house", 1, climbed, 1, 9),
        last_waited_longest(),
    ]
}

/// Complete, and each place waited longer than those below it: of all sets of nine members
/// the highest nine are the ones, and every way through another comes first.
fn last_waited_longest() -> BenchPool {
    let name = "the last waited longest, 1 house";
    let mut last = bench_pool(name, 1, all_arcs(14, 1, false), 0, 9);
    last.pool.weeks = (0..14).collect();
    last
}

/// Pools above in which not all are served, or in which many sets serve all.
fn pools_that_wait() -> Vec<BenchPool> {
    let random = &mut Random::new(6);
    let mut arcs = |percent| random_arcs(random, 14, 2, percent, 0);
    let pools = vec![
        bench_pool("sparse, 15 of 100 arcs, 2 houses", 2, arcs(15), 3, 4),
        bench_pool("medium, 35 of 100 arcs, 2 houses", 2, arcs(35), 2, 2),
        bench_pool("dense, 60 of 100 arcs, 2 houses", 2, arcs(60), 3, 4),
        bench_pool("only 4 houses give", 4, houses_give(14, 4), 3, 4),
        bench_pool("complete, 1 house", 1, all_arcs(14, 1, false), 0, 6),
        bench_pool("complete, 1 house", 1, all_arcs(14, 1, false), 2, 0),
        bench_pool("complete, no house", 0, all_arcs(14, 0, false), 3, 0),
        bench_pool("complete, no house", 0, all_arcs(14, 0, false), 14, 14),
    ];
    [that_wait(random, pools), that_wait(random, shops())].concat()
}

/// Complete, but the highest place takes from the house alone: the one chain through
/// all is behind all others.
fn last_way() -> Arcs {
    let mut gives = all_arcs(14, 1, false);
    for takers in &mut gives[1..] {
        takers.retain(|&taker| taker != 13);
    }
    gives
}

/// Complete, but to the first place gives only one that nobody gives to.
fn no_way_back() -> Arcs {
    let mut gives = all_arcs(14, 0, false);
    for takers in &mut gives {
        takers.retain(|&taker| taker != 0 && taker != 13);
    }
    gives[13].push(0);
    gives
}

pub fn pools_of_six() -> Vec<BenchPool> {
    let random = &mut Random::new(4);
    let mut arcs = |houses, percent| random_arcs(random, 6, houses, percent, 0);
    let mut pools = vec![
        bench_pool("sparse, 20 of 100 arcs, 1 house", 1, arcs(1, 20), 3, 4),
        bench_pool("medium, 40 of 100 arcs, 1 house", 1, arcs(1, 40), 6, 6),
        bench_pool("dense, 70 of 100 arcs, no house", 0, arcs(0, 70), 3, 0),
        bench_pool("dense, 70 of 100 arcs, 2 houses", 2, arcs(2, 70), 3, 3),
        bench_pool("complete, no house", 0, all_arcs(6, 0, false), 6, 6),
        bench_pool("complete, no house", 0, all_arcs(6, 0, false), 2, 0),
        bench_pool("complete, 2 houses", 2, all_arcs(6, 2, false), 6, 6),
        bench_pool("complete, also to itself", 0, all_arcs(6, 0, true), 3, 3),
        bench_pool("no exchange, rising arcs", 0, rising_arcs(6), 6, 6),
        bench_pool("nothing allowed, complete", 1, all_arcs(6, 1, true), 0, 0),
        bench_pool("one ring of 6", 0, one_ring(6, 0), 6, 6),
        bench_pool("one ring of 6", 0, one_ring(6, 0), 5, 5),
        bench_pool("1 house, path of 5", 1, path(6), 0, 5),
    ];
    let waiting = vec![
        bench_pool("dense, 70 of 100 arcs, 1 house", 1, arcs(1, 70), 2, 2),
        bench_pool("complete, 1 house", 1, all_arcs(6, 1, false), 0, 3),
        bench_pool("complete, 1 house", 1, all_arcs(6, 1, false), 2, 0),
    ];
    pools.extend(that_wait(random, waiting));
    pools
}

/// A house and members in a row.
fn path(places: usize) -> Arcs {
    let next = |giver: usize| (giver + 1..places).take(1).collect();
    (0..places).map(next).collect()
}

/// Every third place is of one side, and each side gives to the next: all exchanges of three
/// members are rings through the sides, and there are no shorter ones.
fn three_sides() -> Arcs {
    let takers = |giver: usize| {
        let next = (giver + 1) % 3;
        (next..14).step_by(3).collect()
    };
    (0..14).map(takers).collect()
}

fn houses_give(places: usize, houses: usize) -> Arcs {
    let mut gives = all_arcs(places, houses, false);
    gives[houses..].iter_mut().for_each(Vec::clear);
    gives
}

fn shuffled_ring() -> Arcs {
    let random = &mut Random::new(5);
    let mut order: Vec<usize> = (0..14).collect();
    random.shuffle(&mut order);
    let mut gives = vec![Vec::new(); 14];
    for at in 0..14 {
        gives[order[at]].push(order[(at + 1) % 14]);
    }
    gives
}

/// Exchange tables for the best table alone, which no arcs need to have made; each with a name.
pub fn bench_marks(places: usize) -> Vec<(&'static str, Vec<u16>)> {
    let random = &mut Random::new(7);
    let mut one_in = |sets| {
        let mark = |_| u16::from(random.below(sets) == 0);
        (0..1 << places).map(mark).collect()
    };
    vec![
        ("nothing marked", marks_where(places, |_| false)),
        (
            "one lone member marked",
            marks_where(places, |set| set == 4),
        ),
        (
            "each member alone marked",
            marks_where(places, usize::is_power_of_two),
        ),
        ("one in ten marked at random", one_in(10)),
        ("one in two marked at random", one_in(2)),
        ("everything marked", marks_where(places, |_| true)),
    ]
}
