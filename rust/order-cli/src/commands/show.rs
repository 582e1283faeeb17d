//! `order show`: a table in text.

use crate::answer::{Answer, Failure};
use crate::command::{Command, Example};
use crate::given::Given;
use crate::operand::TABLE;
use crate::refusals::Asked;
use tables::text;

/// The sub-command.
pub static COMMAND: Command = Command {
    name: "show",
    summary: "a table in text",
    about: "\
Prints a task table in text: its counts, then each actor with a line for each action, as `order build`
takes them.",
    operands: &[TABLE],
    options: &[],
    example: Example {
        line: "order show loyalty-first/site.tab",
        output: "\
actors 3
mailboxes 1
mutexes 0

actor 0
0: set 0 145
1: send 0 0

actor 1
0: set 0 139
1: send 0 0

actor 2
0: receive 0 0
1: wait 1 [0]
",
    },
    run,
};

fn run(given: &Given) -> Result<Answer, Failure> {
    let table = Asked::of(&given.file(&TABLE)?).accepted()?;
    Ok(Answer::of(text::show(&table.layout)))
}
