//! Locks and Unlocks, for the calls that step schedules or make one: what must have been met.

pub mod exchanges;
pub mod queues;

use reference::{Action, Table};
use tables::Kind;

/// What a Lock or an Unlock does to its actor's entry in the queue.
#[derive(Clone, Copy, PartialEq, Eq, PartialOrd, Ord, Debug)]
enum Deed {
    /// A Lock of one that is not queued.
    Joins,
    /// A Lock of one that is.
    Deepens,
    /// An Unlock at a depth above 1.
    Keeps,
    /// An Unlock at depth 1.
    Leaves,
    /// An Unlock of one that is not queued.
    Misses,
}

impl Deed {
    /// What an action does at this depth, and to which mutex, if it is a Lock or an Unlock.
    fn of(action: &Action, depth: impl FnOnce(u8) -> u8) -> Option<(Self, u8)> {
        match *action {
            Action::Lock { mutex } => match depth(mutex) {
                0 => Some((Self::Joins, mutex)),
                _ => Some((Self::Deepens, mutex)),
            },
            Action::Unlock { mutex } => match depth(mutex) {
                0 => Some((Self::Misses, mutex)),
                1 => Some((Self::Leaves, mutex)),
                _ => Some((Self::Keeps, mutex)),
            },
            _ => None,
        }
    }
}

/// Whether a table has Locks.
fn has_locks(table: &Table) -> bool {
    let mut actors = 0..table.actors();
    let is_lock = |actor, index| table.kind(actor, index) == Kind::Lock;
    actors.any(|actor| (0..table.actions(actor)).any(|index| is_lock(actor, index)))
}
