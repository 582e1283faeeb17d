//! Refusals 11 to 16, 21 and 22: the entry, what it says, and why that cannot be in the state before
//! it.

use crate::source::Source;
use crate::state::{State, Status};
use crate::table::Table;
use crate::words::{count, step};
use order_engine::REPORT_ROOM;

/// Why the entry at `index` is refused after those before it.
pub(super) fn words(table: &Table, schedule: &Source, index: usize) -> String {
    let Some((before, &[actor, ..])) = schedule.split_at_checked(index) else {
        return String::new();
    };
    let mut buffer = [0; REPORT_ROOM];
    let Ok(state) = State::after(table, before, &mut buffer) else {
        return String::new();
    };
    let why = match state.report.actors().nth(actor.into()) {
        None => {
            let actors = count(table.layout.scripts.len(), "actor", "actors");
            format!("the table has {actors}, numbered from 0")
        }
        Some(found) => match state.status(&found) {
            Status::Finished => {
                let actions = count(found.position.into(), "action", "actions");
                format!("it finished after {actions}")
            }
            Status::Ready(next) => format!("{} is ready", step(&table.layout, next)),
            Status::Waits(next, why) => {
                format!("{} is not ready: {why}", step(&table.layout, next))
            }
            Status::Over(next, why) => {
                let step = step(&table.layout, next);
                let last = "goes no further: only its own steps change its cells";
                format!("{step} runs over: {why}\nactor {actor} {last}")
            }
        },
    };
    let hint = character(schedule, actor);
    format!("entry {index} says actor {actor}, but {why}\n{hint}")
}

/// A line for an entry that comes from a file written as a text. It is larger than any actor.
fn character(schedule: &Source, entry: u8) -> String {
    let name = match entry {
        b'\n' => "a line feed".to_owned(),
        b' ' => "a space".to_owned(),
        b',' => "a comma".to_owned(),
        b'0'..=b'9' => format!("the character {}", char::from(entry)),
        _ => return String::new(),
    };
    match schedule.is_file() {
        true => format!(
            "{entry} is {name}: a schedule file has a byte for each entry; --text takes a text\n"
        ),
        false => String::new(),
    }
}
