//! Steps, numbers and lists in words.

use order_engine::StepName;
use std::fmt::Display;
use tables::action::{self, Action, list, value};
use tables::{Kind, Layout};

/// A step in words, with its name: `0.1 Send to mailbox 0`.
pub fn step(layout: &Layout, name: StepName) -> String {
    match layout.action(name.actor, name.action) {
        Some(action) => format!("{name} {}", does(name.actor, action)),
        None => name.to_string(),
    }
}

/// What an action of `actor` does.
pub fn does(actor: u8, action: &Action) -> String {
    let [code, p, q, ..] = *action;
    let Some(kind) = action::kind(action) else {
        return format!("of unknown kind {code}");
    };
    let name = kind.name();
    match kind {
        Kind::Set => format!("{name} cell {p} to {}", value(action)),
        Kind::Add => format!("{name} cell {q} to cell {p}"),
        Kind::Lesser => format!("{name} of cells {p} and {q} into cell {p}"),
        Kind::Send => format!("{name} to mailbox {p}"),
        Kind::Receive => format!("{name} from mailbox {p}"),
        Kind::TestAny => format!("{name} of {}", joined(listed(actor, action))),
        Kind::WaitAny => format!("{name} for {}", joined(listed(actor, action))),
        Kind::Lock | Kind::Unlock => format!("{name} mutex {p}"),
        Kind::MutexTest => format!("{name} of {}", mutexes(list(action))),
        Kind::MutexWait => format!("{name} for {}", mutexes(list(action))),
        Kind::Note => format!("{name} cell {p}"),
    }
}

/// The steps that a Test or Wait of `actor` lists.
pub fn listed(actor: u8, action: &Action) -> impl Iterator<Item = StepName> {
    let numbers = list(action).iter();
    numbers.map(move |&number| StepName::new(actor, number))
}

fn mutexes(numbers: &[u8]) -> String {
    match numbers {
        [one] => format!("mutex {one}"),
        several => format!("mutexes {}", joined(several)),
    }
}

/// How many there are: `1 mailbox`, `2 mailboxes`.
pub fn count(number: usize, one: &str, several: &str) -> String {
    let noun = if number == 1 { one } else { several };
    format!("{number} {noun}")
}

/// The items with commas between them.
pub fn joined<T: Display>(items: impl IntoIterator<Item = T>) -> String {
    parted(items, ", ")
}

/// The items with spaces between them, as a schedule's text has them.
pub fn spaced<T: Display>(items: impl IntoIterator<Item = T>) -> String {
    parted(items, " ")
}

fn parted<T: Display>(items: impl IntoIterator<Item = T>, sign: &str) -> String {
    let words: Vec<String> = items.into_iter().map(|item| item.to_string()).collect();
    words.join(sign)
}

#[cfg(test)]
mod tests {
    use super::does;
    use std::collections::HashSet;
    use tables::action::{add, lesser, lock, mutex_test, mutex_wait, receive, send, set};
    use tables::action::{lone, note, test_any, unlock, wait_any};
    use tables::{Kind, Layout, TABLE_A};

    #[test]
    fn the_words_of_each_kind() {
        let said = [
            (set(0, 149), "Set cell 0 to 149"),
            (add(0, 1), "Add cell 1 to cell 0"),
            (lesser(0, 1), "Lesser of cells 0 and 1 into cell 0"),
            (send(0, 3), "Send to mailbox 0"),
            (receive(5, 3), "Receive from mailbox 5"),
            (test_any(7, &[0, 2]), "TestAny of 4.0, 4.2"),
            (wait_any(7, &[0]), "WaitAny for 4.0"),
            (lock(1), "Lock mutex 1"),
            (unlock(2), "Unlock mutex 2"),
            (mutex_test(7, &[0, 1]), "MutexTest of mutexes 0, 1"),
            (mutex_wait(7, &[3]), "MutexWait for mutex 3"),
            (note(6), "Note cell 6"),
        ];
        let met: HashSet<u8> = said.iter().map(|(action, _)| action[0]).collect();
        assert_eq!(met.len(), Kind::COUNT);
        for (action, words) in said {
            assert_eq!(does(4, &action), words);
        }
        let mut unknown = lone(Kind::Lock, 0);
        unknown[0] = 255;
        assert_eq!(does(4, &unknown), "of unknown kind 255");
    }

    #[test]
    fn a_step_that_is_not_there() {
        let layout = Layout::of(&TABLE_A).unwrap();
        let [there, absent] = [1, 2].map(|action| order_engine::StepName::new(1, action));
        assert_eq!(super::step(&layout, there), "1.1 WaitAny for 1.0");
        assert_eq!(super::step(&layout, absent), "1.2");
    }
}
