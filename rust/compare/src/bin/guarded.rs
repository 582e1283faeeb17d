//! Runs each call with every lent buffer ending right before an inaccessible page, then with every
//! one beginning right after one: no byte outside what is lent is read or written, and what is lent
//! to be read is not written. Ends with status 1 otherwise, or at a difference from the reference.

use compare::harness::call::Call;
use compare::harness::demands::Demands;
use compare::harness::difference::Difference;
use compare::harness::guarded::Guarded;
use compare::harness::shrink::shrunk;
use compare::harness::sides::{Sides, random};
use compare::harness::tally::Tally;
use compare::options::Options;
use guard::{Edge, report_faults, under_way};
use std::process::ExitCode;
use std::time::Instant;

const SEED: u64 = 20_250_102;
const CASES: usize = 6_000;
const ROUNDS: [(Edge, &str); 2] = [
    (Edge::End, "buffers end right before a page"),
    (Edge::Begin, "buffers begin right after a page"),
];

fn main() -> ExitCode {
    let options = match Options::read() {
        Ok(options) => options,
        Err(mistake) => {
            eprintln!("{mistake}");
            return ExitCode::from(2);
        }
    };
    let seed = options.seed.unwrap_or(SEED);
    let cases = options.cases.unwrap_or(CASES);
    println!("guarded buffers: seed {seed}, {cases} inputs for each call and round");
    report_faults();
    let start = Instant::now();
    for (edge, words) in ROUNDS {
        for call in options.calls() {
            let tally = match guarded(call, edge, seed, cases) {
                Ok(tally) => tally,
                Err(difference) => {
                    println!(
                        "DIFFERENT with seed {seed}; shrunk:\n{}",
                        shrunk(*difference)
                    );
                    return ExitCode::FAILURE;
                }
            };
            println!("{words}: {:<9} {:>6} accepted", call.name, tally.accepted());
            let demands = Demands::of(&tally).accepted(1).only(call.refusals);
            let shortfalls = demands.short();
            if !shortfalls.is_empty() {
                println!("TOO FEW: {}", shortfalls.join("; "));
                return ExitCode::FAILURE;
            }
        }
    }
    let seconds = start.elapsed().as_secs_f64();
    println!("nothing else touched, {seconds:.1} s\n");
    ExitCode::SUCCESS
}

/// Goes through the inputs of a call with its buffers at an edge.
fn guarded(
    call: &'static Call,
    edge: Edge,
    seed: u64,
    cases: usize,
) -> Result<Tally, Box<Difference>> {
    let mut sides = Sides::new(Guarded::new(edge));
    let mut tally = Tally::default();
    random(call, seed, cases, &mut |input| {
        under_way(call.name, tally.total());
        sides.ask(call, input, &mut tally)
    })?;
    Ok(tally)
}
