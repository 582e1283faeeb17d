//! What follows a sub-command's name: operands, in their order, and options, anywhere.

/// Something that has to follow a sub-command's name.
#[derive(Clone, Copy, Debug)]
pub struct Operand {
    /// What stands for it in the usage.
    pub name: &'static str,
    /// What it is, in a line.
    pub what: &'static str,
    /// What a refusal calls it.
    pub role: &'static str,
    /// What is done with it.
    pub sort: Sort,
}

/// What is done with an operand.
#[derive(Clone, Copy, PartialEq, Eq, Debug)]
pub enum Sort {
    /// A file that is read.
    Source,
    /// A schedule: a file that is read, or a text in its place.
    Schedule,
    /// A step's name.
    Step,
    /// A seed.
    Seed,
    /// A file that is written.
    Target,
}

/// Something that may stand anywhere after a sub-command's name.
#[derive(Clone, Copy, Debug)]
pub struct Choice {
    /// Its name, with two dashes.
    pub name: &'static str,
    /// What stands in the usage for the file that follows and is written, if one does.
    pub target: Option<&'static str>,
    /// What it does, in a line.
    pub what: &'static str,
    /// The two verdicts for which the exit status then stands, if it does.
    pub verdicts: Option<[&'static str; 2]>,
}

/// The table, which almost all sub-commands ask for.
pub const TABLE: Operand = Operand {
    name: "TABLE",
    what: "the file of a task table",
    role: "the table",
    sort: Sort::Source,
};

/// The one schedule.
pub const SCHEDULE: Operand = schedule(
    "SCHEDULE",
    "the schedule",
    "a schedule: a file of bytes, or a text, --text \"0 1 0 1\"",
);
/// The first of two schedules.
pub const FIRST: Operand = schedule(
    "FIRST",
    "the first schedule",
    "a schedule: a file of bytes, or a text, --text \"0 0 1 1\"",
);
/// The second of two schedules.
pub const SECOND: Operand = schedule("SECOND", "the second schedule", "another, likewise");

/// The option that lets the exit status answer.
pub const QUIET: &str = "--quiet";

/// Lets the exit status answer: 0 for the verdict `yes`, 3 for `no`.
pub const fn quiet(yes: &'static str, no: &'static str) -> Choice {
    Choice {
        verdicts: Some([yes, no]),
        ..plain(
            QUIET,
            "nothing on standard output; a refusal still on standard error",
        )
    }
}

/// An option that nothing follows.
pub const fn plain(name: &'static str, what: &'static str) -> Choice {
    Choice {
        name,
        target: None,
        what,
        verdicts: None,
    }
}

/// An option that a file follows, which is written.
pub const fn to_file(name: &'static str, what: &'static str) -> Choice {
    Choice {
        target: Some("FILE"),
        ..plain(name, what)
    }
}

const fn schedule(name: &'static str, role: &'static str, what: &'static str) -> Operand {
    Operand {
        name,
        what,
        role,
        sort: Sort::Schedule,
    }
}

impl Choice {
    /// How it is used.
    pub fn usage(&self) -> String {
        match self.target {
            Some(target) => format!("{} {target}", self.name),
            None => self.name.to_owned(),
        }
    }
}
