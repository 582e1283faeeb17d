//! A step's name.

use std::fmt;

/// A step's name: its actor and its action, both numbered from 0. Shown as `actor.action`.
#[derive(Clone, Copy, PartialEq, Eq, PartialOrd, Ord, Hash, Debug, Default)]
pub struct StepName {
    /// The actor.
    pub actor: u8,
    /// The action, numbered within its actor.
    pub action: u8,
}

impl StepName {
    /// The name of action `action` of actor `actor`.
    pub const fn new(actor: u8, action: u8) -> Self {
        Self { actor, action }
    }
}

/// Actor and action.
impl From<(u8, u8)> for StepName {
    fn from((actor, action): (u8, u8)) -> Self {
        Self { actor, action }
    }
}

impl fmt::Display for StepName {
    fn fmt(&self, f: &mut fmt::Formatter<'_>) -> fmt::Result {
        write!(f, "{}.{}", self.actor, self.action)
    }
}
