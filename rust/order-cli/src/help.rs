//! The help: of the whole, and of each sub-command.

use crate::command::Command;
use crate::commands;
use crate::operand::QUIET;
use crate::shown::shown;
use crate::words::joined;
use std::ffi::OsStr;
use std::fmt::Write;

/// Asks for help.
pub const HELP: &str = "--help";

/// Whether the argument asks for help.
pub fn asked(argument: &OsStr) -> bool {
    argument == HELP || argument == "-h"
}

/// What the command is, and its sub-commands.
pub fn overview() -> String {
    let mut text = "usage: order COMMAND ARGUMENTS\n\n\
        What a controller's task table and an order of events (a schedule) do.\n\n"
        .to_owned();
    for command in commands::ALL {
        let _ = writeln!(text, "  {:<7}{}", command.name, command.summary);
    }
    text += "\n`order COMMAND --help` says more.\n\n";
    text += "A schedule is a file with a byte for each entry, the number of an actor; or, in its place,\n\
        a text: --text \"0 1 0 1\".\n\n";
    text += "Options may stand anywhere, and -- ends them: what follows it is none. A value that begins with\n\
        a dash is joined to its option by =, as in --out=-load.\n\n";
    text + &statuses(commands::ALL)
}

/// The exit statuses of these sub-commands.
fn statuses(commands: &[&Command]) -> String {
    let choices = commands.iter().flat_map(|command| command.options);
    let verdicts: Vec<[&str; 2]> = choices.filter_map(|choice| choice.verdicts).collect();
    let [yes, no] = [0, 1].map(|place| {
        let words: Vec<&str> = verdicts.iter().map(|both| both[place]).collect();
        format!("with {QUIET}: {}", words.join(" or "))
    });
    let (answered, last) = match verdicts.is_empty() {
        true => ("answered".to_owned(), String::new()),
        false => (format!("answered; {yes}"), format!("  3  {no}\n")),
    };
    format!(
        "exit status\n\
        \x20 0  {answered}\n\
        \x20 1  refused: number, position, file and reason are on standard error\n\
        \x20 2  wrong use, a file or an output that cannot be read or written, or a mistake in a text\n\
        {last}"
    )
}

/// How a sub-command is used and what it does, with an example.
pub fn of(command: &Command) -> String {
    let mut text = format!("usage: {}\n\n{}\n\n", command.usage(), command.about);
    let operands = command
        .operands
        .iter()
        .map(|one| (one.name.to_owned(), one.what));
    let options = command.options.iter().map(|one| (one.usage(), one.what));
    for (name, what) in operands.chain(options) {
        let _ = writeln!(text, "  {name:<15}{what}");
    }
    let statuses = statuses(&[command]);
    let _ = write!(text, "\n{statuses}\nexample, in examples/forecourt\n");
    let _ = writeln!(text, "  $ {}", command.example.line);
    for line in command.example.output.lines() {
        let _ = writeln!(text, "{}", format!("  {line}").trim_end());
    }
    text
}

/// What was wrong in the use of a sub-command, and how it is used.
pub fn after_wrong_use(command: &Command, words: &str) -> String {
    let (name, usage) = (command.name, command.usage());
    format!("order {name}: {words}\nusage: {usage}\n`order {name} {HELP}` says more.\n")
}

/// That there is no such sub-command, and which there are.
pub fn no_command(name: &OsStr) -> String {
    let names = joined(commands::ALL.iter().map(|command| command.name));
    let name = shown(name);
    format!("order: there is no command `{name}`; there are {names}\n`order {HELP}` says more.\n")
}
