//! `order ready`: who can go on after a schedule.

use crate::answer::{Answer, Failure};
use crate::command::{Command, Example};
use crate::given::Given;
use crate::operand::{SCHEDULE, TABLE};
use crate::refusals::Asked;
use order_engine::REPORT_ROOM;

/// The sub-command.
pub static COMMAND: Command = Command {
    name: "ready",
    summary: "who can go on after a schedule, and who waits for what or is over",
    about: "\
Runs a schedule from a fresh site and says how the state stands that it leads to, the mask of the
ready actors (bit i, from the lowest, is actor i's), and of each actor whether it is ready, waits, is
over or is finished: its next step, and what it waits for. An actor is over where its next step is an
Add whose sum would pass 4294967295, the most that a cell holds: it never goes on.",
    operands: &[TABLE, SCHEDULE],
    options: &[],
    example: Example {
        line: "order ready loyalty-first/site.tab --text \"2 0\"",
        output: "\
going: 2 actors are ready
mask 3: actors 0, 1
actor 0 is ready: 0.1 Send to mailbox 0
actor 1 is ready: 1.0 Set cell 0 to 139
actor 2 waits: 2.1 WaitAny for 2.0; 2.0 Receive from mailbox 0 has met no Send
",
    },
    run,
};

fn run(given: &Given) -> Result<Answer, Failure> {
    let (table, schedule) = (given.file(&TABLE)?, given.schedule(&SCHEDULE)?);
    let asked = Asked::of_one(&table, &schedule);
    let table = asked.accepted()?;
    let mut buffer = [0; REPORT_ROOM];
    let state = asked.reached(&table, &mut buffer)?;
    let mut text = format!("{}\n{}\n", state.ending(), state.mask());
    text.extend(state.report.actors().map(|actor| state.stands(&actor)));
    Ok(Answer::of(text))
}
