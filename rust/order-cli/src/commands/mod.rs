//! The sub-commands: a module each, and its line in the list.

mod build;
mod check;
mod draw;
mod page;
mod pair;
mod ready;
mod route;
mod run;
mod same;
mod show;

use crate::command::Command;

/// All of them, in the order of the help.
pub static ALL: &[&Command] = &[
    &check::COMMAND,
    &run::COMMAND,
    &ready::COMMAND,
    &page::COMMAND,
    &draw::COMMAND,
    &pair::COMMAND,
    &same::COMMAND,
    &route::COMMAND,
    &show::COMMAND,
    &build::COMMAND,
];
