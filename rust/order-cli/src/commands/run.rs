//! `order run`: what a schedule leads to.

use crate::answer::{Answer, Failure};
use crate::command::{Command, Example};
use crate::given::Given;
use crate::names::names;
use crate::operand::{Choice, SCHEDULE, TABLE, plain, to_file};
use crate::refusals::Asked;
use crate::table::Table;
use crate::words::step;
use order_engine::REPORT_ROOM;

const STEPS: Choice = plain("--steps", "first say which step each entry runs");

const REPORT: Choice = to_file("--report", "also write the state report's bytes to FILE");

/// The sub-command.
pub static COMMAND: Command = Command {
    name: "run",
    summary: "what a schedule leads to: positions, cells, pairs, queues, the journal",
    about: "\
Runs a schedule from a fresh site and says how the state stands that it leads to: finished, stuck
or going; where each actor stands and what its eight cells hold; which Receive has met which Send,
and the value; what waits in each mailbox; who is queued for each mutex, the owner first, and with
what depth: how many Unlocks it takes to leave; and, where the table has Notes, the journal: which
Notes ran, the oldest first, and what each wrote.",
    operands: &[TABLE, SCHEDULE],
    options: &[STEPS, REPORT],
    example: Example {
        line: "order run loyalty-first/site.tab --text \"0 0 1 1\"",
        output: "\
going: 1 actor is ready
actor 0: at 2 of 2, finished
  cells: 145 0 0 0 0 0 0 0
actor 1: at 2 of 2, finished
  cells: 139 0 0 0 0 0 0 0
actor 2: at 0 of 2, next 2.0 Receive from mailbox 0, ready
  cells: 0 0 0 0 0 0 0 0
mailbox 0: 0.1 Send with 145, then 1.1 Send with 139
",
    },
    run,
};

fn run(given: &Given) -> Result<Answer, Failure> {
    let (table, schedule) = (given.file(&TABLE)?, given.schedule(&SCHEDULE)?);
    let asked = Asked::of_one(&table, &schedule);
    let table = asked.accepted()?;
    let mut buffer = [0; REPORT_ROOM];
    let state = asked.reached(&table, &mut buffer)?;
    let mut text = String::new();
    if given.has(&STEPS) {
        text += &steps(&table, &schedule);
    }
    text += &state.words();
    Answer::of(text).also_in(given.path_after(&REPORT), "report", state.report.bytes())
}

/// A line for each entry of an accepted schedule: the step that it runs.
fn steps(table: &Table, schedule: &[u8]) -> String {
    let names = names(&table.bytes, schedule).into_iter().enumerate();
    let lines =
        names.map(|(entry, name)| format!("entry {entry}: {}\n", step(&table.layout, name)));
    lines.collect()
}
