//! How an actor stands.

use crate::action::Action;
use crate::next::Next;
use crate::site::Site;
use crate::table::Table;

/// How an actor stands.
#[derive(Clone, Copy, PartialEq, Eq, Debug)]
pub enum Status {
    /// It can run its next action.
    Ready,
    /// It cannot yet.
    Waits,
    /// It never can: its next action is an Add that runs over.
    Over,
    /// It has run all its actions.
    Finished,
}

impl Status {
    /// All of them.
    pub const ALL: [Self; 4] = [Self::Ready, Self::Waits, Self::Over, Self::Finished];

    /// How `actor` stands in a state that the table's steps reached. Panics where there is no such actor.
    pub fn in_state(table: &Table, site: &Site, actor: usize) -> Self {
        Self::of(table.script(actor), site, actor)
    }

    /// How `actor` stands, whose actions are `script`.
    pub(crate) fn of(script: &[[u8; 8]], site: &Site, actor: usize) -> Self {
        let Some(&bytes) = script.get(site.actor(actor).position) else {
            return Self::Finished;
        };
        match site.next(actor, &Action::decode(bytes)) {
            Next::Taken { .. } => Self::Ready,
            Next::Waits => Self::Waits,
            Next::Over => Self::Over,
        }
    }

    /// The word that a page has for it.
    pub const fn word(self) -> &'static str {
        match self {
            Self::Ready => "ready",
            Self::Waits => "waits",
            Self::Over => "over",
            Self::Finished => "finished",
        }
    }
}
