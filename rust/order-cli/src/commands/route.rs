//! `order route`: by which exchanges one schedule becomes another.

use crate::answer::{Answer, Failure};
use crate::command::{Command, Example};
use crate::given::Given;
use crate::names::names;
use crate::operand::{FIRST, SECOND, TABLE};
use crate::refusals::Asked;
use crate::table::Table;
use crate::words::{count, spaced, step};
use order_engine::{route, route_room, same};

/// The sub-command.
pub static COMMAND: Command = Command {
    name: "route",
    summary: "by which exchanges one schedule becomes another",
    about: "\
Says by which exchanges of independent neighbours the first schedule becomes the second, one after
the other, and what they lead to. Schedules that are not the same run have no route.",
    operands: &[TABLE, FIRST, SECOND],
    options: &[],
    example: Example {
        line: "order route loyalty-first/site.tab loyalty-first/order.sch another-order/order.sch",
        output: "\
6 exchanges, one after the other:
entries 3 and 4: 1.1 Send to mailbox 0 and 2.0 Receive from mailbox 0 trade places
entries 2 and 3: 1.0 Set cell 0 to 139 and 2.0 Receive from mailbox 0 trade places
entries 1 and 2: 0.1 Send to mailbox 0 and 2.0 Receive from mailbox 0 trade places
entries 0 and 1: 0.0 Set cell 0 to 145 and 2.0 Receive from mailbox 0 trade places
entries 2 and 3: 0.1 Send to mailbox 0 and 1.0 Set cell 0 to 139 trade places
entries 1 and 2: 0.0 Set cell 0 to 145 and 1.0 Set cell 0 to 139 trade places
then the schedule is: 2 1 0 0 1 2
",
    },
    run,
};

fn run(given: &Given) -> Result<Answer, Failure> {
    let table = given.file(&TABLE)?;
    let (first, second) = (given.schedule(&FIRST)?, given.schedule(&SECOND)?);
    let asked = Asked::of_two(&table, &first, &second);
    let table = asked.accepted()?;
    let mut buffer = vec![0; room(&table, &first, &second)];
    let route = route(&table.bytes, &first, &second, &mut buffer)
        .map_err(|refusal| asked.refused(refusal))?;
    Ok(Answer::of(told(&table, &first, route)))
}

/// The entries to lend. A pair of schedules that has no route wants none: its refusal comes before the
/// one for a small buffer.
fn room(table: &Table, first: &[u8], second: &[u8]) -> usize {
    match same(&table.bytes, first, second) {
        Ok(answer) if answer.is_same() => route_room(first.len()),
        _ => 0,
    }
}

/// The exchanges in words, and the schedule after them.
fn told(table: &Table, first: &[u8], route: &[u16]) -> String {
    let mut steps = names(&table.bytes, first);
    let mut text = match route.len() {
        0 => "no exchange: the two schedules are equal\n".to_owned(),
        length => format!(
            "{}:\n",
            count(length, "exchange", "exchanges, one after the other")
        ),
    };
    for &position in route {
        let k = usize::from(position);
        let [one, other] = [k, k + 1].map(|index| step(&table.layout, steps[index]));
        text += &format!(
            "entries {k} and {}: {one} and {other} trade places\n",
            k + 1
        );
        steps.swap(k, k + 1);
    }
    if !steps.is_empty() {
        let entries = spaced(steps.iter().map(|name| name.actor));
        text += &format!("then the schedule is: {entries}\n");
    }
    text
}
