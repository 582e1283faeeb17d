//! From a table to a text.

use crate::action::{self, Action, list, value};
use crate::kind::Rest;
use crate::layout::Layout;
use std::fmt::Write;

/// The table as a text, of which [`build`](super::build()) makes the same table, if the engine
/// accepts it. An action of an unknown kind is written with a `?` and its bytes, which `build` does
/// not take; bytes that an action does not use are not written.
pub fn show(layout: &Layout) -> String {
    let mut text = format!(
        "actors {}\nmailboxes {}\nmutexes {}\n",
        layout.scripts.len(),
        layout.mailboxes,
        layout.mutexes
    );
    for (actor, script) in layout.scripts.iter().enumerate() {
        let _ = write!(text, "\nactor {actor}\n");
        for (number, action) in script.iter().enumerate() {
            let words = show_action(action).unwrap_or_else(|| format!("? {}", numbers(action)));
            let _ = writeln!(text, "{number}: {words}");
        }
    }
    text
}

/// An action's line, without its number; `None` where its kind is unknown.
pub fn show_action(action: &Action) -> Option<String> {
    let kind = action::kind(action)?;
    let [_, p, q, ..] = *action;
    let rest = match kind.rest() {
        Rest::Nothing => String::new(),
        Rest::Value => format!(" {}", value(action)),
        Rest::Cell => format!(" {q}"),
        Rest::Communications | Rest::Mutexes => format!(" [{}]", numbers(list(action))),
    };
    Some(format!("{} {p}{rest}", kind.word()))
}

fn numbers(bytes: &[u8]) -> String {
    let words: Vec<String> = bytes.iter().map(u8::to_string).collect();
    words.join(" ")
}
