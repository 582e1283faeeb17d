//! Compares the engines for a number of minutes, from a random seed. At the first difference prints
//! the seed that makes it, and the input shrunk to a small one, and ends with status 1.

use compare::harness::call::Call;
use compare::harness::shrink::shrunk;
use compare::harness::sides::{Outcome, Sides, random};
use compare::harness::slots::Input;
use compare::harness::tally::Tally;
use compare::inputs::rng::Rng;
use compare::options::Options;
use std::hash::{BuildHasher, RandomState};
use std::process::ExitCode;
use std::time::{Duration, Instant};

/// How many inputs are made from one seed.
const CASES: usize = 2_000;

fn main() -> ExitCode {
    let options = match Options::read() {
        Ok(options) => options,
        Err(mistake) => {
            eprintln!("{mistake}");
            return ExitCode::from(2);
        }
    };
    let cases = options.cases.unwrap_or(CASES);
    let seed = options
        .seed
        .unwrap_or_else(|| RandomState::new().hash_one(0));
    let minutes = options.minutes.unwrap_or(1);
    println!("soak: seed {seed}, for {minutes} min");
    let end = Instant::now() + Duration::from_secs(60 * minutes);
    let mut seeds = Rng::new(seed);
    let mut soaked: Vec<Soaked> = options.calls().map(Soaked::new).collect();
    while Instant::now() < end {
        for each in &mut soaked {
            let part = seeds.bits();
            if let Err(difference) = each.part(part, cases) {
                let name = each.call.name;
                println!("DIFFERENT: {name} --seed {part} --cases {cases}, of soak seed {seed}");
                println!("shrunk:\n{}", shrunk(*difference));
                return ExitCode::FAILURE;
            }
        }
    }
    for Soaked { call, tally, .. } in &soaked {
        let accepted = tally.accepted();
        let all = tally.total();
        println!("{:<9} {all:>12} inputs, {accepted:>12} accepted", call.name);
    }
    println!("no difference");
    ExitCode::SUCCESS
}

/// A call and what was met of it.
struct Soaked {
    call: &'static Call,
    sides: Sides<Input>,
    tally: Tally,
}

impl Soaked {
    fn new(call: &'static Call) -> Self {
        Self {
            call,
            sides: Sides::new(Input::default()),
            tally: Tally::default(),
        }
    }

    /// Goes through the inputs of one seed.
    fn part(&mut self, seed: u64, cases: usize) -> Outcome {
        let Self { call, sides, tally } = self;
        random(call, seed, cases, &mut |input| {
            sides.ask(call, input, tally)
        })
    }
}
