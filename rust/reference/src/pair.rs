//! The pair verdict: whether two steps are dependent, by document 01's four cases and document 02's
//! fifth.

use crate::action::Action;
use crate::name::Name;
use crate::reader::check;
use crate::refusal::{Reason, Refusal};
use crate::table::Table;

/// Whether two steps of an accepted table are dependent. Panics where a name is not in the table.
pub fn dependent(table: &Table, one: Name, other: Name) -> bool {
    if one.actor() == other.actor() {
        return true;
    }
    let a = table.action(one.actor(), one.action());
    let b = table.action(other.actor(), other.action());
    compete(&a, &b) || watches(table, one.actor(), &a, &b) || watches(table, other.actor(), &b, &a)
}

/// Cases 1, 3 and 5: both Send, both Receive on one mailbox, both Lock on one mutex, or both Note.
fn compete(a: &Action, b: &Action) -> bool {
    match *a {
        Action::Send { mailbox, .. } => {
            matches!(*b, Action::Send { mailbox: m, .. } if m == mailbox)
        }
        Action::Receive { mailbox, .. } => {
            matches!(*b, Action::Receive { mailbox: m, .. } if m == mailbox)
        }
        Action::Lock { mutex } => matches!(*b, Action::Lock { mutex: m } if m == mutex),
        Action::Note { .. } => matches!(*b, Action::Note { .. }),
        _ => false,
    }
}

/// Cases 2 and 4: `a`, of `actor`, lists a communication that `b` may complete, or a mutex that it
/// unlocks.
fn watches(table: &Table, actor: usize, a: &Action, b: &Action) -> bool {
    match a {
        Action::TestAny { actions, .. } | Action::WaitAny { actions, .. } => {
            let listed = actions.numbers().iter();
            let mut listed = listed.map(|&number| table.action(actor, usize::from(number)));
            listed.any(|post| completes(b, &post))
        }
        Action::MutexTest { mutexes, .. } | Action::MutexWait { mutexes, .. } => {
            matches!(b, Action::Unlock { mutex } if mutexes.numbers().contains(mutex))
        }
        _ => false,
    }
}

/// Whether `step` is a Send on the mailbox of a listed Receive, or a Receive on that of a listed Send.
fn completes(step: &Action, listed: &Action) -> bool {
    match (step, listed) {
        (Action::Send { mailbox: m, .. }, Action::Receive { mailbox: n, .. })
        | (Action::Receive { mailbox: m, .. }, Action::Send { mailbox: n, .. }) => m == n,
        _ => false,
    }
}

/// Whether steps `a`·`k` and `b`·`l` (actor·action) are dependent: refusals 1 to 9, then 17.
pub fn pair(table: &[u8], a: u8, k: u8, b: u8, l: u8) -> Result<bool, Refusal> {
    let table = check(table)?;
    let one = name(&table, a, k)?;
    let other = name(&table, b, l)?;
    Ok(dependent(&table, one, other))
}

/// The name, if it is in the table.
fn name(table: &Table, actor: u8, action: u8) -> Result<Name, Refusal> {
    let (actor, action) = (usize::from(actor), usize::from(action));
    if actor < table.actors() && action < table.actions(actor) {
        return Ok(Name::new(actor, action));
    }
    Err(Refusal::new(Reason::NoStep, 0))
}
