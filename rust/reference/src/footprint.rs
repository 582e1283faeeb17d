//! What a step touches, as sets of marks: steps of two actors are dependent where the one's marks meet
//! the other's. The same relation as [`crate::pair::dependent`], made for asking it often.

use crate::action::{Action, List};
use crate::name::Name;
use crate::table::Table;
use tables::Kind;

/// The marks of a step, and the marks that it is dependent on.
#[derive(Clone, Copy, PartialEq, Eq, Debug, Default)]
pub struct Footprint {
    /// What the step is, and its actor's number.
    pub marks: u64,
    /// What it must not change places with, of another actor.
    pub meets: u64,
}

/// Where the actor's number stands in the marks. Nothing meets these.
const ACTOR: u64 = 0b111;
/// The mark of a Note.
const NOTES: u64 = 1 << 7;
/// The first of eight marks each: of a mailbox or mutex.
const SENDS: u32 = 8;
const RECEIVES: u32 = 16;
const LOCKS: u32 = 24;
const UNLOCKS: u32 = 32;
/// Lists a Receive of a mailbox, which a Send there may complete.
const AWAITS_SEND: u32 = 40;
/// Lists a Send of a mailbox, which a Receive there may complete.
const AWAITS_RECEIVE: u32 = 48;
/// Lists a mutex, which an Unlock may hand on.
const AWAITS_UNLOCK: u32 = 56;

/// One of eight marks.
fn mark(first: u32, number: u8) -> u64 {
    1 << (first + u32::from(number))
}

impl Footprint {
    /// The footprint of `name`, whose action is `action`.
    pub fn of(table: &Table, name: Name, action: &Action) -> Self {
        let (marks, meets) = match action {
            Action::Send { mailbox, .. } => {
                let send = mark(SENDS, *mailbox);
                (send, send | mark(AWAITS_SEND, *mailbox))
            }
            Action::Receive { mailbox, .. } => {
                let receive = mark(RECEIVES, *mailbox);
                (receive, receive | mark(AWAITS_RECEIVE, *mailbox))
            }
            Action::TestAny { actions, .. } | Action::WaitAny { actions, .. } => {
                awaits(table, name.actor(), actions)
            }
            Action::Lock { mutex } => (mark(LOCKS, *mutex), mark(LOCKS, *mutex)),
            Action::Unlock { mutex } => (mark(UNLOCKS, *mutex), mark(AWAITS_UNLOCK, *mutex)),
            Action::MutexTest { mutexes, .. } | Action::MutexWait { mutexes, .. } => {
                let list = mutexes.numbers().iter();
                let set = list.fold(0, |set, &mutex| set | mark(0, mutex));
                (set << AWAITS_UNLOCK, set << UNLOCKS)
            }
            Action::Note { .. } => (NOTES, NOTES),
            // In no case of dependence.
            _ => (0, 0),
        };
        Self {
            marks: name.actor() as u64 | marks,
            meets,
        }
    }

    /// The marks without the actor's number.
    pub fn touched(&self) -> u64 {
        self.marks & !ACTOR
    }

    /// Whether the two steps are dependent.
    pub fn dependent(&self, other: &Self) -> bool {
        let of_one_actor = (self.marks ^ other.marks) & ACTOR == 0;
        of_one_actor || self.meets(other)
    }

    /// The same of steps of two actors.
    pub fn meets(&self, other: &Self) -> bool {
        self.marks & other.meets != 0
    }
}

/// Marks and meets of a Test or Wait that lists `actions` of `actor`.
fn awaits(table: &Table, actor: usize, actions: &List) -> (u64, u64) {
    let script = table.script(actor);
    let (mut marks, mut meets) = (0, 0);
    for &number in actions.numbers() {
        let [code, mailbox, ..] = script[usize::from(number)];
        if code == Kind::Receive.code() {
            marks |= mark(AWAITS_SEND, mailbox);
            meets |= mark(SENDS, mailbox);
        } else {
            marks |= mark(AWAITS_RECEIVE, mailbox);
            meets |= mark(RECEIVES, mailbox);
        }
    }
    (marks, meets)
}
