//! `order draw`: a schedule that a seed determines.

use crate::answer::{Answer, Failure};
use crate::command::{Command, Example};
use crate::given::Given;
use crate::operand::{Choice, Operand, Sort, TABLE, to_file};
use crate::refusals::Asked;
use crate::state::{State, Status};
use crate::words::{count, spaced};
use order_engine::{REPORT_ROOM, SCHEDULE_MOST, draw};

const SEED: Operand = Operand {
    name: "SEED",
    what: "0 to 4294967295, decimal or hexadecimal after 0x",
    role: "the seed",
    sort: Sort::Seed,
};

const OUT: Choice = to_file("--out", "also write the schedule's bytes to FILE");

/// The sub-command.
pub static COMMAND: Command = Command {
    name: "draw",
    summary: "a schedule that a seed determines, run until nobody is ready",
    about: "\
Draws a schedule from a fresh site: as long as somebody is ready, the seed determines which of the
ready actors is stepped. The same table and seed give the same schedule everywhere. Says its entries,
as --text takes them, and how it ends: finished, or stuck and who waits for what or is over.",
    operands: &[TABLE, SEED],
    options: &[OUT],
    example: Example {
        line: "order draw loyalty-first/site.tab 7",
        output: "\
6 steps drawn from seed 7: 0 1 0 1 2 2
finished: every actor has run all its actions
",
    },
    run,
};

fn run(given: &Given) -> Result<Answer, Failure> {
    let seed = given.seed(&SEED)?;
    let file = given.file(&TABLE)?;
    let asked = Asked::of(&file);
    let table = asked.accepted()?;
    let words = |refusal| asked.refused(refusal);
    let mut buffer = [0; SCHEDULE_MOST];
    let schedule = draw(&table.bytes, seed, &mut buffer).map_err(words)?;
    let mut report = [0; REPORT_ROOM];
    let state = State::after(&table, schedule, &mut report).map_err(words)?;
    let mut text = drawn(seed, schedule);
    text += &format!("{}\n", state.ending());
    text += &left(&state);
    Answer::of(text).also_in(given.path_after(&OUT), "schedule", schedule)
}

/// The entries, as a schedule's text has them.
fn drawn(seed: u32, schedule: &[u8]) -> String {
    if schedule.is_empty() {
        return format!("no step drawn from seed {seed}: nobody is ready at the start\n");
    }
    let steps = count(schedule.len(), "step", "steps");
    format!("{steps} drawn from seed {seed}: {}\n", spaced(schedule))
}

/// How each actor stands that is not finished.
fn left(state: &State) -> String {
    let actors = state.report.actors();
    let left = actors.filter(|actor| state.status(actor) != Status::Finished);
    left.map(|actor| state.stands(&actor)).collect()
}
