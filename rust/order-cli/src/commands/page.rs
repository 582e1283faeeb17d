//! `order page`: what a schedule leads to, a line for each actor.

use crate::answer::{Answer, Failure};
use crate::command::{Command, Example};
use crate::given::Given;
use crate::operand::{SCHEDULE, TABLE};
use crate::refusals::Asked;
use order_engine::{PAGE_ROOM, page};

/// The sub-command.
pub static COMMAND: Command = Command {
    name: "page",
    summary: "what a schedule leads to, on a page: a line for each actor",
    about: "\
Runs a schedule from a fresh site and lays out the state that it leads to, for a sheet of paper: a line
of 101 characters for each actor, with its number, its position, its status (`ready`, `waits`, `over` or
`finished`) and what its eight cells hold. An actor is over where its next step is an Add whose sum
would pass 4294967295, the most that a cell holds: it never goes on.",
    operands: &[TABLE, SCHEDULE],
    options: &[],
    example: Example {
        line: "order page loyalty-first/site.tab --text \"2 0\"",
        output: "\
0  1 ready           145          0          0          0          0          0          0          0
1  0 ready             0          0          0          0          0          0          0          0
2  1 waits             0          0          0          0          0          0          0          0
",
    },
    run,
};

fn run(given: &Given) -> Result<Answer, Failure> {
    let (table, schedule) = (given.file(&TABLE)?, given.schedule(&SCHEDULE)?);
    let mut buffer = [0; PAGE_ROOM];
    let page = page(&table, &schedule, &mut buffer)
        .map_err(|refusal| Asked::of_one(&table, &schedule).refused(refusal))?;
    Ok(Answer::of(page.to_owned()))
}
