//! `order check`: whether a file is a task table, and what it has.

use crate::answer::{Answer, Failure};
use crate::command::{Command, Example};
use crate::given::Given;
use crate::operand::TABLE;
use crate::refusals::Asked;

/// The sub-command.
pub static COMMAND: Command = Command {
    name: "check",
    summary: "whether a file is a task table, and what it has",
    about: "Reads a task table and says what it has, or the first thing that is wrong with it.",
    operands: &[TABLE],
    options: &[],
    example: Example {
        line: "order check loyalty-first/site.tab",
        output: "\
accepted: 64 bytes, 3 actors, 1 mailbox, 0 mutexes
actor 0: 2 actions
actor 1: 2 actions
actor 2: 2 actions
",
    },
    run,
};

fn run(given: &Given) -> Result<Answer, Failure> {
    let table = Asked::of(&given.file(&TABLE)?).accepted()?;
    Ok(Answer::of(format!("accepted: {}", table.summary())))
}
