//! What a sub-command declares of itself. Its usage and its help follow from that.

use crate::answer::{Answer, Failure};
use crate::given::Given;
use crate::operand::{Choice, Operand};

/// A sub-command.
#[derive(Clone, Copy, Debug)]
pub struct Command {
    /// Its name.
    pub name: &'static str,
    /// What it does, in a line.
    pub summary: &'static str,
    /// What it does, in some lines.
    pub about: &'static str,
    /// What has to follow its name, in this order.
    pub operands: &'static [Operand],
    /// What may stand anywhere after its name.
    pub options: &'static [Choice],
    /// An example, run in `examples/forecourt`.
    pub example: Example,
    /// What it does.
    pub run: fn(&Given) -> Result<Answer, Failure>,
}

/// A command line and what it prints.
#[derive(Clone, Copy, Debug)]
pub struct Example {
    /// The line, as typed in `examples/forecourt`.
    pub line: &'static str,
    /// What it prints on standard output.
    pub output: &'static str,
}

impl Command {
    /// How it is used, in a line.
    pub fn usage(&self) -> String {
        let mut line = format!("order {}", self.name);
        for operand in self.operands {
            line += &format!(" {}", operand.name);
        }
        for choice in self.options {
            line += &format!(" [{}]", choice.usage());
        }
        line
    }
}
