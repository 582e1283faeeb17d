//! Stepping along a schedule: refusals 11 to 13 and 21, or 14 to 16 and 22 for a second schedule.

use crate::action::Action;
use crate::name::Name;
use crate::next::Next;
use crate::refusal::{Reason, Refusal};
use crate::site::Site;
use crate::table::Table;

/// Which of a call's schedules: the refusals of its entries go by that.
#[derive(Clone, Copy, PartialEq, Eq, Debug)]
pub enum Schedule {
    /// The only one, or the first of two.
    First,
    /// The second of two.
    Second,
}

impl Schedule {
    /// The refusals for no such actor, a finished one, one that waits and one whose Add runs over.
    fn reasons(self) -> [Reason; 4] {
        match self {
            Self::First => Reason::OF_FIRST,
            Self::Second => Reason::OF_SECOND,
        }
    }
}

/// Steps a fresh site along `entries`, and shows each step's name and action to `visit`.
#[inline(always)]
pub fn follow(
    table: &Table,
    which: Schedule,
    entries: &[u8],
    site: &mut Site,
    mut visit: impl FnMut(Name, &Action),
) -> Result<(), Refusal> {
    let scripts = table.scripts();
    let [no_actor, finished, not_ready, over] = which.reasons();
    for (index, &entry) in entries.iter().enumerate() {
        let refused = |reason| Err(Refusal::new(reason, index as u32));
        let actor = usize::from(entry);
        if actor >= table.actors() {
            return refused(no_actor);
        }
        let position = site.actor(actor).position;
        let Some(&bytes) = scripts[actor].get(position) else {
            return refused(finished);
        };
        let action = Action::decode(bytes);
        match site.step(actor, &action) {
            Next::Taken { .. } => {}
            Next::Waits => return refused(not_ready),
            Next::Over => return refused(over),
        }
        visit(Name::new(actor, position), &action);
    }
    Ok(())
}
