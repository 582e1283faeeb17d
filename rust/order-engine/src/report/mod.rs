//! A state report, seen in its bytes.

mod journal;
mod mutex;

pub use journal::{Entry, Journal};
pub use mutex::{Mutex, Queued};

use crate::step::StepName;

/// Bytes of an actor's record: its position and eight cells of four bytes.
const RECORD: usize = 33;
/// Bytes of an action's record.
const ACTION: usize = 8;

/// The report of a state: views of its parts, over the bytes that [`run`](crate::run()) wrote.
///
/// ```
/// // One actor that sets cell 2 to 7.
/// let table = [1, 1, 0, 0, 8, 0, 1, 0, 0, 2, 0, 0, 7, 0, 0, 0];
/// let mut buffer = [0; order_engine::REPORT_ROOM];
/// let report = order_engine::run(&table, &[0], &mut buffer).unwrap();
/// let actor = report.actors().next().unwrap();
/// assert_eq!(actor.position, 1);
/// assert_eq!(actor.cells, [0, 0, 7, 0, 0, 0, 0, 0]);
/// ```
#[derive(Clone, Copy, PartialEq, Eq, Debug)]
pub struct Report<'a> {
    bytes: &'a [u8],
    /// Each actor's number of actions.
    counts: [u8; 8],
    actors: u8,
    mailboxes: u8,
    mutexes: u8,
}

/// An actor: where it stands and what its cells hold.
#[derive(Clone, Copy, PartialEq, Eq, Hash, Debug)]
#[non_exhaustive]
pub struct Actor {
    /// The actor's number.
    pub number: u8,
    /// The number of its next action; as many as it has where it is finished.
    pub position: u8,
    /// Its cells.
    pub cells: [u32; 8],
}

/// What became of an action as a communication.
#[derive(Clone, Copy, PartialEq, Eq, Hash, Debug)]
pub enum Stage {
    /// Its step has not run, or it is neither a Send nor a Receive.
    Unposted,
    /// It waits in its mailbox. Whether it is a Send or a Receive the table tells.
    Pending {
        /// What a Send carries; 0 for a Receive.
        value: u32,
    },
    /// It has met its partner.
    Done {
        /// The partner.
        partner: StepName,
        /// The value sent and received.
        value: u32,
    },
}

/// An action and what became of it as a communication.
#[derive(Clone, Copy, PartialEq, Eq, Hash, Debug)]
#[non_exhaustive]
pub struct Communication {
    /// The action, as a step.
    pub step: StepName,
    /// What became of it.
    pub stage: Stage,
}

/// A mailbox: what waits in it.
#[derive(Clone, Copy, PartialEq, Eq, Hash, Debug)]
pub struct Mailbox<'a> {
    number: u8,
    names: &'a [[u8; 2]],
}

impl<'a> Report<'a> {
    /// The report that a run of an accepted table wrote.
    pub(crate) fn of_run(table: &[u8], bytes: &'a [u8]) -> Self {
        let &[_, actors, mailboxes, mutexes, ..] = table else {
            unreachable!("a run accepted a table of {} bytes", table.len());
        };
        let (entries, _) = table[4..].as_chunks::<4>();
        let mut counts = [0; 8];
        for (count, entry) in counts.iter_mut().zip(&entries[..usize::from(actors)]) {
            *count = entry[2];
        }
        Self {
            bytes,
            counts,
            actors,
            mailboxes,
            mutexes,
        }
    }

    /// The report's bytes.
    pub fn bytes(&self) -> &'a [u8] {
        self.bytes
    }

    /// The actors, by number.
    pub fn actors(&self) -> impl Iterator<Item = Actor> + use<'a> {
        let (records, _) = self.bytes.as_chunks::<RECORD>();
        (0..self.actors).zip(records).map(|(number, record)| {
            let (cells, _) = record[1..].as_chunks::<4>();
            Actor {
                number,
                position: record[0],
                cells: std::array::from_fn(|cell| u32::from_le_bytes(cells[cell])),
            }
        })
    }

    /// All actions, actor by actor, with what became of each as a communication.
    pub fn communications(&self) -> impl Iterator<Item = Communication> + use<'a> {
        let from = RECORD * usize::from(self.actors);
        let (records, _) = self.bytes[from..].as_chunks::<ACTION>();
        let counts = self.counts.into_iter();
        let actors = (0..self.actors).zip(counts);
        let steps = actors
            .flat_map(|(actor, count)| (0..count).map(move |action| StepName::new(actor, action)));
        steps.zip(records).map(|(step, record)| Communication {
            step,
            stage: stage(record),
        })
    }

    /// The mailboxes, by number.
    pub fn mailboxes(&self) -> impl Iterator<Item = Mailbox<'a>> + use<'a> {
        let mut rest = self.queues();
        (0..self.mailboxes).map(move |number| mailbox(number, &mut rest))
    }

    /// The mutexes, by number.
    pub fn mutexes(&self) -> impl Iterator<Item = Mutex<'a>> + use<'a> {
        let mut rest = self.after_mailboxes();
        (0..self.mutexes).map(move |number| Mutex::off(number, &mut rest))
    }

    /// The journal.
    pub fn journal(&self) -> Journal<'a> {
        let mut rest = self.after_mailboxes();
        for number in 0..self.mutexes {
            Mutex::off(number, &mut rest);
        }
        Journal::of(rest)
    }

    /// The bytes from the first mailbox on.
    fn queues(&self) -> &'a [u8] {
        let actions: usize = self.counts.iter().map(|&count| usize::from(count)).sum();
        &self.bytes[RECORD * usize::from(self.actors) + ACTION * actions..]
    }

    /// The bytes from the first mutex on.
    fn after_mailboxes(&self) -> &'a [u8] {
        let mut rest = self.queues();
        for number in 0..self.mailboxes {
            mailbox(number, &mut rest);
        }
        rest
    }
}

impl<'a> Mailbox<'a> {
    /// The mailbox's number.
    pub fn number(&self) -> u8 {
        self.number
    }

    /// The steps that wait in it, the oldest first: all Sends, or all Receives.
    pub fn steps(&self) -> impl ExactSizeIterator<Item = StepName> + use<'a> {
        let names = self.names.iter();
        names.map(|&[actor, action]| StepName::new(actor, action))
    }
}

fn stage(record: &[u8; ACTION]) -> Stage {
    let &[stage, actor, action, _, a, b, c, d] = record;
    let value = u32::from_le_bytes([a, b, c, d]);
    match stage {
        0 => Stage::Unposted,
        1 => Stage::Pending { value },
        2 => Stage::Done {
            partner: StepName::new(actor, action),
            value,
        },
        other => unreachable!("order_run reported stage {other}"),
    }
}

/// Takes a mailbox off the front of `rest`.
fn mailbox<'a>(number: u8, rest: &mut &'a [u8]) -> Mailbox<'a> {
    let length = usize::from(u16::from_le_bytes([rest[0], rest[1]]));
    let (names, after) = rest[2..].split_at(2 * length);
    *rest = after;
    Mailbox {
        number,
        names: names.as_chunks().0,
    }
}
