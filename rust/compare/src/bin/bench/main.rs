//! The proved engine's times as ratios to the reference's, measured in alternating rounds of one
//! run, and instructions per call where valgrind is at hand. Both engines get the same inputs and
//! equal room. Prints a table, and writes it into the page that the command line names.

mod counting;
mod page;
mod timing;

use compare::calls::measure_all;
use compare::workload::loads;
use counting::Counts;
use std::env;
use std::process::ExitCode;
use timing::Timing;

fn main() -> ExitCode {
    let mut timing = Timing::new();
    measure_all(&mut timing, &loads());
    let rows = timing.rows;
    let counts = Counts::of(&rows);
    match &counts {
        Ok(counts) => counts.print(&rows),
        Err(why) => println!("\nno instruction counts: {why}"),
    }
    let Some(path) = env::args().nth(1) else {
        return ExitCode::SUCCESS;
    };
    match page::write(&path, &rows, counts.ok().as_ref()) {
        Ok(()) => ExitCode::SUCCESS,
        Err(error) => {
            eprintln!("{path}: {error}");
            ExitCode::FAILURE
        }
    }
}
