//! Parts of a table left out; what named them names others.

use tables::{Action, Field, Kind, Layout, Rest, action};

/// Leaves out an action; lists of its actor no longer name it.
pub fn drop_action(layout: &mut Layout, actor: usize, index: usize) {
    layout.scripts[actor].remove(index);
    for action in &mut layout.scripts[actor] {
        let rest = action::kind(action).map(Kind::rest);
        if rest == Some(Rest::Communications) {
            relist(action, index as u8);
        }
    }
}

/// Leaves out a mailbox; what went to it goes to another.
pub fn drop_mailbox(layout: &mut Layout, mailbox: u8) {
    layout.mailboxes -= 1;
    for action in layout.scripts.iter_mut().flatten() {
        if field(action) == Some(Field::Mailbox) {
            action[1] = below(action[1], mailbox);
        }
    }
}

/// Leaves out a mutex; what named it names another.
pub fn drop_mutex(layout: &mut Layout, mutex: u8) {
    layout.mutexes -= 1;
    for action in layout.scripts.iter_mut().flatten() {
        if field(action) == Some(Field::Mutex) {
            action[1] = below(action[1], mutex);
        }
        if action::kind(action).map(Kind::rest) == Some(Rest::Mutexes) {
            for number in &mut action[4..] {
                *number = below(*number, mutex);
            }
        }
    }
}

fn field(action: &Action) -> Option<Field> {
    action::kind(action).map(Kind::field)
}

/// The number that `number` has once `gone` is left out; its lower neighbour's for `gone` itself.
pub fn below(number: u8, gone: u8) -> u8 {
    match number >= gone {
        true => number.saturating_sub(1),
        false => number,
    }
}

/// A list without `gone`, and with the numbers after it one lower.
fn relist(action: &mut Action, gone: u8) {
    let mut left: Vec<u8> = action::list(action).to_vec();
    left.retain(|&number| number != gone);
    for number in &mut left {
        *number = below(*number, gone);
    }
    action[3] = left.len() as u8;
    left.resize(action::LONGEST_LIST, 0);
    action[4..].copy_from_slice(&left);
}
