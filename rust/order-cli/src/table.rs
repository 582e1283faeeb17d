//! A table that the engine accepts.

use crate::words::count;
use order_engine::{Refusal, StepName, check};
use tables::{Kind, Layout, action};

/// An accepted table: its bytes, and what they hold.
#[derive(Clone, PartialEq, Eq, Debug)]
pub struct Table {
    /// The bytes.
    pub bytes: Vec<u8>,
    /// What they hold.
    pub layout: Layout,
}

impl Table {
    /// The table of these bytes, if the engine accepts them.
    pub fn of(bytes: &[u8]) -> Result<Self, Refusal> {
        check(bytes)?;
        let Some(layout) = Layout::of(bytes) else {
            unreachable!("an accepted table comes apart");
        };
        let bytes = bytes.to_vec();
        Ok(Self { bytes, layout })
    }

    /// The kind of a step's action, if the table has the step.
    pub fn kind(&self, name: StepName) -> Option<Kind> {
        let action = self.layout.action(name.actor, name.action)?;
        action::kind(action)
    }

    /// Whether some action is of this kind.
    pub fn has(&self, kind: Kind) -> bool {
        let mut actions = self.layout.scripts.iter().flatten();
        actions.any(|one| action::kind(one) == Some(kind))
    }

    /// What the table has, in a line and one for each actor.
    pub fn summary(&self) -> String {
        let layout = &self.layout;
        let mut text = format!(
            "{}, {}, {}, {}\n",
            count(self.bytes.len(), "byte", "bytes"),
            count(layout.scripts.len(), "actor", "actors"),
            count(layout.mailboxes.into(), "mailbox", "mailboxes"),
            count(layout.mutexes.into(), "mutex", "mutexes"),
        );
        for (actor, script) in layout.scripts.iter().enumerate() {
            let actions = count(script.len(), "action", "actions");
            text += &format!("actor {actor}: {actions}\n");
        }
        text
    }
}
