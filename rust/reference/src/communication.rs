//! What became of one Send or Receive.

use crate::name::Name;

/// How far a Send or Receive has come; the discriminant is the report's number.
#[derive(Clone, Copy, PartialEq, Eq, Debug, Default)]
#[repr(u8)]
pub enum Stage {
    /// Its step has not run.
    #[default]
    Unposted = 0,
    /// It waits in its mailbox for a partner.
    Pending = 1,
    /// It has a partner.
    Done = 2,
}

/// The state of one Send or Receive. Any other action keeps the unposted one.
#[derive(Clone, Copy, PartialEq, Eq, Debug, Default)]
pub struct Communication {
    /// How far it has come.
    pub stage: Stage,
    /// The partner, once done.
    pub partner: Name,
    /// For a Receive, one more than the cell meant for the value; 0 for a Send.
    into: u8,
    /// The value sent, or received once done.
    pub value: u32,
}

impl Communication {
    /// A Send of `value`, pending.
    pub fn send(value: u32) -> Self {
        Self {
            stage: Stage::Pending,
            partner: Name::default(),
            into: 0,
            value,
        }
    }

    /// A Receive into `cell`, pending.
    pub fn receive(cell: u8) -> Self {
        Self {
            stage: Stage::Pending,
            partner: Name::default(),
            into: cell + 1,
            value: 0,
        }
    }

    /// The same, done with `partner` and `value`.
    pub fn done(self, partner: Name, value: u32) -> Self {
        Self {
            stage: Stage::Done,
            partner,
            value,
            ..self
        }
    }

    /// The cell that a Receive is meant for.
    pub fn cell(&self) -> Option<u8> {
        self.into.checked_sub(1)
    }

    /// The eight bytes that a report has of it.
    pub fn bytes(&self) -> [u8; 8] {
        let [actor, action] = self.partner.bytes();
        let [v0, v1, v2, v3] = self.value.to_le_bytes();
        [self.stage as u8, actor, action, 0, v0, v1, v2, v3]
    }
}
