//! `order pair`: whether two steps may trade places.

use crate::answer::{Answer, Failure};
use crate::command::{Command, Example};
use crate::given::Given;
use crate::operand::{Choice, Operand, Sort, TABLE, quiet};
use crate::refusals::Asked;
use crate::rule::rule;
use crate::words::step;
use order_engine::{PairVerdict, pair};

const ONE: Operand = Operand {
    name: "A.K",
    what: "a step: actor A's action K, both counted from 0",
    role: "the first step",
    sort: Sort::Step,
};

const OTHER: Operand = Operand {
    name: "B.L",
    what: "another, likewise",
    role: "the second step",
    sort: Sort::Step,
};

const QUIET: Choice = quiet("independent", "dependent");

/// The sub-command.
pub static COMMAND: Command = Command {
    name: "pair",
    summary: "whether two steps may trade places",
    about: "\
Says whether two steps are independent, so that they may trade places where they are neighbours, or
dependent, and then which case makes them so.",
    operands: &[TABLE, ONE, OTHER],
    options: &[QUIET],
    example: Example {
        line: "order pair loyalty-first/site.tab 0.1 1.1",
        output: "\
dependent: 0.1 Send to mailbox 0 and 1.1 Send to mailbox 0
case 1: both Send on mailbox 0
",
    },
    run,
};

fn run(given: &Given) -> Result<Answer, Failure> {
    let steps = [given.step(&ONE)?, given.step(&OTHER)?];
    let file = given.file(&TABLE)?;
    let asked = Asked::of_steps(&file, &steps);
    let table = asked.accepted()?;
    let [one, other] = steps;
    let verdict = pair(&table.bytes, one, other).map_err(|refusal| asked.refused(refusal))?;
    if given.has(&QUIET) {
        return Ok(Answer::quiet(verdict == PairVerdict::Independent));
    }
    let layout = &table.layout;
    let both = format!("{} and {}", step(layout, one), step(layout, other));
    Ok(Answer::of(match verdict {
        PairVerdict::Independent => format!("independent: {both}\n"),
        PairVerdict::Dependent => {
            let rule = rule(layout, one, other).unwrap_or_default();
            format!("dependent: {both}\n{rule}\n")
        }
    }))
}
