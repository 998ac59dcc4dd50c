//! Times of a call beside those of the baseline, printed as rows of Markdown.

use std::hint::black_box;
use std::time::{Duration, Instant};

/// How long a row runs; each of its times is the least of all that were taken.
const ROW: Duration = Duration::from_millis(300);
/// What takes fewer microseconds is run several times between two looks at the clock.
const SAMPLE: f64 = 20.0;

pub fn print_heading(title: &str) {
    print_heading_of(title, ["tuned"]);
}

/// A column for the call and for each that stands beside it, then the ratio to each.
pub fn print_heading_of<const BESIDE: usize>(title: &str, beside: [&str; BESIDE]) {
    let times = beside.map(|name| format!(" {name}, µs |")).concat();
    let ratios = beside.map(|name| format!(" ours / {name} |")).concat();
    println!("\n{title}\n");
    println!("| pool | ours, µs |{times}{ratios}");
    println!("|---|---|{}", "---|---|".repeat(BESIDE));
}

pub fn print_row(name: &str, mut call: impl FnMut(), mut baseline: impl FnMut()) {
    print_row_of(name, [&mut call, &mut baseline]);
}

/// Runs all in turn, so that a busy machine slows them alike, and prints the least times; the
/// first is the call.
pub fn print_row_of<const SIDES: usize>(name: &str, runs: [&mut dyn FnMut(); SIDES]) {
    let mut sides = runs.map(Side::new);
    let start = Instant::now();
    while start.elapsed() < ROW {
        sides.iter_mut().for_each(Side::sample);
    }
    let least = sides.map(|side| side.least);
    let times = least.map(|time| format!(" {time:.2} |")).concat();
    let ratios = least.map(|time| format!(" {:.2} |", least[0] / time));
    println!("| {name} |{times}{}", ratios[1..].concat());
}

/// What runs in turn with others, and its least time until now.
struct Side<'a> {
    run: &'a mut dyn FnMut(),
    runs: usize,
    least: f64,
}

impl<'a> Side<'a> {
    fn new(mut run: &'a mut dyn FnMut()) -> Self {
        Side {
            runs: runs_in_a_sample(&mut run),
            run,
            least: f64::INFINITY,
        }
    }

    fn sample(&mut self) {
        self.least = self.least.min(micros(&mut self.run, self.runs));
    }
}

/// The first run, which does not count, finds the memory cold.
fn runs_in_a_sample(run: &mut impl FnMut()) -> usize {
    run();
    let once = micros(run, 1).max(SAMPLE / 1e4);
    (SAMPLE / once).ceil() as usize
}

/// Microseconds for one of so many runs.
fn micros(run: &mut impl FnMut(), runs: usize) -> f64 {
    let start = Instant::now();
    for _ in 0..runs {
        black_box(&mut *run)();
    }
    start.elapsed().as_secs_f64() * 1e6 / runs as f64
}
