//! Rounds, times and ratios.

use compare::workload::{Load, Measure, Work};
use std::hint::black_box;
use std::time::{Duration, Instant};

const ROUNDS: usize = 201;
/// How long one engine's part of a round lasts, about.
const PART: Duration = Duration::from_millis(1);

/// What was measured of a call on a load.
pub struct Row {
    pub call: &'static str,
    pub load: &'static str,
    /// How many inputs the load has.
    pub inputs: usize,
    /// The least nanoseconds per call, of all rounds.
    pub engine: f64,
    pub reference: f64,
    /// The median of the rounds' ratios.
    pub ratio: f64,
}

/// Measures and prints.
pub struct Timing {
    pub rows: Vec<Row>,
}

impl Timing {
    /// Prints the table's head.
    pub fn new() -> Self {
        println!(
            "nanoseconds per call, least of {ROUNDS} rounds, and the median of the rounds' ratios"
        );
        println!(
            "{:<23}{:<14}{:>10}{:>11}{:>8}",
            "call", "table", "engine", "reference", "ratio"
        );
        Self { rows: Vec::new() }
    }
}

impl Measure for Timing {
    fn measure(
        &mut self,
        call: &'static str,
        load: &Load,
        mut engine: impl FnMut(&Work) -> usize,
        mut reference: impl FnMut(&Work) -> usize,
    ) {
        let works = &load.works;
        for work in works {
            assert_eq!(engine(work), reference(work), "{call}");
        }
        let turns = turns(works, &mut reference);
        let (mut engines, mut references, mut ratios) = (Vec::new(), Vec::new(), Vec::new());
        for round in 0..ROUNDS {
            // Each goes first in every second round.
            let (ours, theirs) = if round % 2 == 0 {
                let ours = time(&mut engine, works, turns);
                (ours, time(&mut reference, works, turns))
            } else {
                let theirs = time(&mut reference, works, turns);
                (time(&mut engine, works, turns), theirs)
            };
            engines.push(ours);
            references.push(theirs);
            ratios.push(ours / theirs);
        }
        let row = Row {
            call,
            load: load.name,
            inputs: works.len(),
            engine: least(&engines),
            reference: least(&references),
            ratio: median(&mut ratios),
        };
        println!(
            "{call:<23}{:<14}{:>10.1}{:>11.1}{:>8.2}",
            row.load, row.engine, row.reference, row.ratio
        );
        self.rows.push(row);
    }
}

/// How often a part goes through the inputs.
fn turns(works: &[Work], reference: &mut impl FnMut(&Work) -> usize) -> usize {
    let once = time(reference, works, 3) * works.len() as f64;
    ((PART.as_nanos() as f64 / once) as usize).max(1)
}

/// Nanoseconds per call.
fn time(call: &mut impl FnMut(&Work) -> usize, works: &[Work], turns: usize) -> f64 {
    let start = Instant::now();
    for _ in 0..turns {
        for work in works {
            black_box(call(black_box(work)));
        }
    }
    start.elapsed().as_nanos() as f64 / (turns * works.len()) as f64
}

fn least(times: &[f64]) -> f64 {
    times.iter().copied().fold(f64::INFINITY, f64::min)
}

fn median(numbers: &mut [f64]) -> f64 {
    numbers.sort_by(f64::total_cmp);
    numbers[numbers.len() / 2]
}
