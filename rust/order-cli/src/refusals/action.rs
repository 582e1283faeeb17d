//! Refusals 6 to 9: the action, its bytes, and what is wrong with them.

use crate::words::{count, joined, listed, step};
use order_engine::{Reason, Refusal, StepName};
use tables::action::{self, Action, LONGEST_LIST, list};
use tables::layout::CELLS;
use tables::text::show_action;
use tables::{Field, Kind, Layout, Rest};

/// The names of an action's bytes.
const BYTES: [&str; 8] = ["kind", "p", "q", "z", "b4", "b5", "b6", "b7"];

/// The action that a refusal points at, and what is wrong with it.
pub(super) fn words(refusal: Refusal, layout: &Layout) -> String {
    let Some((actor, number)) = layout.at(refusal.position() as usize) else {
        return String::new();
    };
    let Some(action) = layout.action(actor, number) else {
        return String::new();
    };
    let bytes: Vec<String> = action.iter().map(|byte| format!("{byte:02X}")).collect();
    let text = show_action(action).map_or_else(String::new, |text| format!(", in text: {text}"));
    let name = StepName::new(actor, number);
    let mut wrong = match (action::kind(action), refusal.reason()) {
        (Some(kind), Reason::Range) => out_of_range(layout, kind, action),
        (Some(_), Reason::Listed) => not_allowed(layout, name, action),
        (Some(kind), Reason::Unused) => unused(kind, action),
        (Some(_), _) => Vec::new(),
        (None, _) => vec![format!(
            "kind {}: kinds are 0 to {}",
            action[0],
            Kind::COUNT - 1
        )],
    };
    wrong.insert(
        0,
        format!("actor {actor}, action {number}: {}{text}", bytes.join(" ")),
    );
    wrong.iter().map(|line| format!("{line}\n")).collect()
}

/// Refusal 7: the numbers that are out of their range.
fn out_of_range(layout: &Layout, kind: Kind, action: &Action) -> Vec<String> {
    let [_, p, q, z, ..] = *action;
    let absent = |field, number| absent(layout, field, number);
    let length = || {
        let wrong = !(1..=LONGEST_LIST).contains(&z.into());
        wrong.then(|| format!("the list's length is {z}: a list has 1 to {LONGEST_LIST} numbers"))
    };
    let mut wrong: Vec<String> = absent(kind.field(), p).into_iter().collect();
    match kind.rest() {
        Rest::Nothing | Rest::Value => {}
        Rest::Cell => wrong.extend(absent(Field::Cell, q)),
        Rest::Communications => wrong.extend(length()),
        Rest::Mutexes => {
            wrong.extend(length());
            wrong.extend(
                list(action)
                    .iter()
                    .filter_map(|&one| absent(Field::Mutex, one)),
            );
        }
    }
    wrong
}

/// That there is no such cell, mailbox or mutex, where that is so.
fn absent(layout: &Layout, field: Field, number: u8) -> Option<String> {
    let (name, limit, there) = match field {
        Field::Cell => ("cell", CELLS, format!("an actor has {CELLS} cells")),
        Field::Mailbox => {
            let there = count(layout.mailboxes.into(), "mailbox", "mailboxes");
            (
                "mailbox",
                layout.mailboxes,
                format!("the table has {there}"),
            )
        }
        Field::Mutex => {
            let there = count(layout.mutexes.into(), "mutex", "mutexes");
            ("mutex", layout.mutexes, format!("the table has {there}"))
        }
    };
    (number >= limit).then(|| format!("there is no {name} {number}: {there}, numbered from 0"))
}

/// Refusal 8: the listed actions that are not earlier Sends or Receives.
fn not_allowed(layout: &Layout, name: StepName, action: &Action) -> Vec<String> {
    let wrong = listed(name.actor, action).filter_map(|one| {
        let why = match layout.action(one.actor, one.action).map(action::kind) {
            None => "is not in the table",
            Some(_) if one.action >= name.action => "is not earlier",
            Some(Some(Kind::Send | Kind::Receive)) => return None,
            Some(_) => "is no Send or Receive",
        };
        Some(format!("it lists {}, which {why}", step(layout, one)))
    });
    wrong.collect()
}

/// Refusal 9: the bytes without a use that are not 0.
fn unused(kind: Kind, action: &Action) -> Vec<String> {
    let listed = 4 + list(action).len();
    let used: &[usize] = match kind.rest() {
        Rest::Nothing => &[0, 1],
        Rest::Value => &[0, 1, 4, 5, 6, 7],
        Rest::Cell => &[0, 1, 2],
        Rest::Communications | Rest::Mutexes => &[&[0, 1, 3], &[4, 5, 6, 7][..listed - 4]].concat(),
    };
    let wrong = (0..BYTES.len()).filter(|byte| !used.contains(byte) && action[*byte] != 0);
    let wrong = joined(wrong.map(|byte| format!("{} is {:02X}", BYTES[byte], action[byte])));
    vec![format!("without a use: {wrong}")]
}
