//! `order same`: whether two schedules are one and the same run.

use crate::answer::{Answer, Failure};
use crate::command::{Command, Example};
use crate::difference::{Pairs, difference};
use crate::given::Given;
use crate::operand::{Choice, FIRST, SECOND, TABLE, plain, quiet};
use crate::recordings::Recordings;
use crate::refusals::Asked;
use order_engine::{SameVerdict, prefix, same};

const PREFIX: Choice = plain(
    "--prefix",
    "of recordings: hold the longer to the length of the shorter",
);

const ALL: Choice = plain(
    "--all",
    "name all dependent pairs that run in opposite orders",
);

const QUIET: Choice = quiet("same", "different");

/// The sub-command.
pub static COMMAND: Command = Command {
    name: "same",
    summary: "whether two schedules are one and the same run, and why not",
    about:
        "\
Says whether two schedules are the same run: whether exchanges of independent neighbours turn the
first into the second, so that both end in the same state. Of different ones it names the steps that
only one of them runs, and the first dependent pair of steps that they run in opposite orders: the one
whose later step comes first in FIRST, and of several such the one whose earlier step does.

Pairs of entries of FIRST are compared in that order, up to the pair named, and the second line says
how many: all of them of schedules that are the same, none where the lengths or the steps differ.

With --prefix the two are recordings that need not end together. The longer is held to the length of
the shorter, and the answer is about those parts; it also says how many entries are left over. These
are not stepped, so that none of them is refused.",
    operands: &[TABLE, FIRST, SECOND],
    options: &[PREFIX, ALL, QUIET],
    example: Example {
        line: "order same loyalty-first/site.tab loyalty-first/order.sch fleet-first/order.sch",
        output: "\
different
pairs compared: 5
0.1 Send to mailbox 0 and 1.1 Send to mailbox 0 run in opposite orders (entries count from 0):
  first schedule: entry 1 is 0.1, entry 3 is 1.1
  second schedule: entry 1 is 1.1, entry 3 is 0.1
They are dependent, case 1: both Send on mailbox 0.
",
    },
    run,
};

fn run(given: &Given) -> Result<Answer, Failure> {
    let table = given.file(&TABLE)?;
    let (first, second) = (given.schedule(&FIRST)?, given.schedule(&SECOND)?);
    let asked = Asked::of_two(&table, &first, &second);
    let table = asked.accepted()?;
    let by_parts = given.has(&PREFIX);
    let verdict = if by_parts { prefix } else { same };
    let answer =
        verdict(&table.bytes, &first, &second).map_err(|refusal| asked.refused(refusal))?;
    if given.has(&QUIET) {
        return Ok(Answer::quiet(answer.is_same()));
    }
    let (first, second, left) = match by_parts {
        true => {
            let parts = Recordings::of(&first, &second);
            (parts.first, parts.second, parts.left_over())
        }
        false => (&first[..], &second[..], String::new()),
    };
    let compared = format!("pairs compared: {}\n", answer.pairs);
    Ok(Answer::of(match answer.verdict {
        SameVerdict::Same => format!("same\n{compared}{left}"),
        SameVerdict::Different => {
            let pairs = match given.has(&ALL) {
                true => Pairs::All,
                false => Pairs::First,
            };
            let words = difference(&table, first, second, &answer, pairs);
            format!("different\n{compared}{left}{words}")
        }
    }))
}
