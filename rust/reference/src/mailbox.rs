//! A mailbox: the queue of the communications that wait in it.

use crate::name::Name;

/// The side of a mailbox that a communication comes to.
#[derive(Clone, Copy, PartialEq, Eq, Debug)]
pub enum Side {
    /// Sends.
    Send,
    /// Receives.
    Receive,
}

/// Pending communications, oldest first, all of one side.
///
/// Names are written one after the other and never moved: a mailbox sees each name once at most.
#[derive(Clone, Debug)]
pub struct Mailbox {
    /// The side of those that are queued, if any.
    side: Side,
    head: usize,
    tail: usize,
    log: [Name; Name::COUNT],
}

impl Mailbox {
    /// A mailbox with nothing in it.
    pub fn empty() -> Self {
        Self {
            side: Side::Send,
            head: 0,
            tail: 0,
            log: [Name::default(); Name::COUNT],
        }
    }

    /// What is queued, oldest first.
    pub fn queue(&self) -> &[Name] {
        &self.log[self.head..self.tail]
    }

    /// Takes the oldest pending one of the other side, or else queues `name`.
    pub fn meet(&mut self, side: Side, name: Name) -> Option<Name> {
        if self.head < self.tail && self.side != side {
            let oldest = self.log[self.head];
            self.head += 1;
            return Some(oldest);
        }
        self.side = side;
        self.log[self.tail] = name;
        self.tail += 1;
        None
    }
}
