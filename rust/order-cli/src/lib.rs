//! The command `order`: asks the proved engine about a task table and its schedules, and answers in
//! words.
//!
//! A sub-command is a module of [`commands`], and a line of its list. It takes what was [`given`] by the
//! [`arguments`] and gives an [`Answer`] or a [`Failure`]. Of a [`source`] it has what an answer needs,
//! and a file that it writes is a [`draft`] until the answer is printed. What several of them say has a
//! module here:
//!
//! - [`words`]: a step in words, [`rule`]: why two steps are dependent, [`waits`]: what a step waits
//!   for, [`over`]: why an Add runs over, [`posts`]: what became of a Send or a Receive;
//! - [`names`]: the steps that a schedule runs, [`state`]: where it leads to, [`difference`]: how two
//!   of them differ, [`recordings`]: what two have that need not end together;
//! - [`refusals`]: what a refusal is about and points at, [`shown`]: names in messages.

#![forbid(unsafe_code)]

pub mod answer;
pub mod arguments;
pub mod command;
pub mod commands;
pub mod difference;
pub mod draft;
pub mod files;
pub mod given;
pub mod help;
pub mod length;
pub mod names;
pub mod operand;
pub mod over;
pub mod posts;
pub mod recordings;
pub mod refusals;
pub mod rule;
pub mod shown;
pub mod source;
pub mod state;
pub mod table;
pub mod waits;
pub mod words;

use answer::{Answer, Failure, Said};
use arguments::Arguments;
use command::Command;
use given::Given;
use std::ffi::OsString;

/// What the command says to these arguments.
pub fn answer(arguments: &[OsString]) -> Said {
    let Some((name, rest)) = arguments.split_first() else {
        return Said::failed(help::overview(), answer::WRONG_USE);
    };
    if help::asked(name) {
        return Answer::of(help::overview()).into();
    }
    let Some(command) = commands::ALL.iter().find(|command| name == command.name) else {
        return Said::failed(help::no_command(name), answer::WRONG_USE);
    };
    match of(command, rest) {
        Ok(answer) => answer.into(),
        Err(Failure::Refused(words)) => Said::failed(words, answer::REFUSED),
        Err(Failure::Trouble(words)) => Said::failed(words, answer::WRONG_USE),
        Err(Failure::Use(words)) => {
            Said::failed(help::after_wrong_use(command, &words), answer::WRONG_USE)
        }
    }
}

/// What a sub-command answers to these arguments.
fn of(command: &Command, arguments: &[OsString]) -> Result<Answer, Failure> {
    let arguments = Arguments::of(command.options, arguments)?;
    if arguments.want_help()? {
        return Ok(Answer::of(help::of(command)));
    }
    (command.run)(&Given::of(command.operands, &arguments)?)
}
