//! Compares the proved engine with the reference on many inputs that a seed determines. Ends with
//! status 1 at the first difference, or where too few inputs of some sort were met.

use compare::harness::call::Call;
use compare::harness::shrink::shrunk;
use compare::harness::sides::compare;
use compare::harness::tally::Tally;
use compare::options::Options;
use reference::Reason;
use std::process::ExitCode;
use std::time::Instant;

const SEED: u64 = 20_250_101;

fn main() -> ExitCode {
    let options = match Options::read() {
        Ok(options) => options,
        Err(mistake) => {
            eprintln!("{mistake}");
            return ExitCode::from(2);
        }
    };
    let mut tallies = Vec::new();
    for call in options.calls() {
        let Some(tally) = held(call, &options) else {
            return ExitCode::FAILURE;
        };
        tallies.push((call, tally));
    }
    refusals(&tallies);
    ExitCode::SUCCESS
}

/// Compares a call and prints what was met; none where there was a difference, or too little was
/// met.
fn held(call: &'static Call, options: &Options) -> Option<Tally> {
    let seed = options.seed.unwrap_or(SEED);
    let cases = options.cases.unwrap_or(call.cases);
    println!("{}: {}", call.name, call.about);
    println!("seed {seed}, {cases} random inputs");
    let start = Instant::now();
    let tally = match compare(call, seed, cases) {
        Ok(tally) => tally,
        Err(difference) => {
            println!(
                "DIFFERENT with seed {seed}; shrunk:\n{}",
                shrunk(*difference)
            );
            return None;
        }
    };
    println!("{tally}");
    let shortfalls = call.shortfalls(&tally);
    if shortfalls.is_empty() {
        println!("no difference, {:.1} s\n", start.elapsed().as_secs_f64());
        return Some(tally);
    }
    println!("TOO FEW");
    for shortfall in shortfalls {
        println!("{shortfall}");
    }
    None
}

/// Prints how often each call gave each of its refusals. At each one every field of the answer was
/// compared, and every byte that the call was lent with what it held before.
fn refusals(tallies: &[(&Call, Tally)]) {
    println!("refusals, each with all fields and every lent byte compared");
    print!("{:<8}", "");
    for (call, _) in tallies {
        print!("{:>10}", call.name);
    }
    println!();
    for reason in Reason::ALL {
        print!("{:<8}", reason.number());
        for (call, tally) in tallies {
            match call.refuses(reason) {
                true => print!("{:>10}", tally.refused(reason)),
                false => print!("{:>10}", "-"),
            }
        }
        println!();
    }
}
