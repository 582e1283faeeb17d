//! Where a schedule leads to, in words.

use crate::posts::{met, waiting};
use crate::table::Table;
use crate::words::{count, joined, spaced, step};
use crate::{over, waits};
use order_engine::report::{Actor, Journal, Mailbox, Mutex};
use order_engine::{Ending, Ready, Refusal, Report, StepName, ready, run};
use tables::{Kind, action};

/// The state that a schedule leads to.
pub struct State<'a> {
    /// The table.
    pub table: &'a Table,
    /// The state's report.
    pub report: Report<'a>,
    ready: Ready,
}

/// How an actor stands.
#[derive(Clone, PartialEq, Eq, Debug)]
pub enum Status {
    /// It has run all its actions.
    Finished,
    /// It can run this step.
    Ready(StepName),
    /// It cannot yet run this step, and why.
    Waits(StepName, String),
    /// It can never run this step, an Add, and why.
    Over(StepName, String),
}

impl<'a> State<'a> {
    /// Runs `schedule` and reports into `buffer`.
    pub fn after(table: &'a Table, schedule: &[u8], buffer: &'a mut [u8]) -> Result<Self, Refusal> {
        Ok(Self {
            table,
            report: run(&table.bytes, schedule, buffer)?,
            ready: ready(&table.bytes, schedule)?,
        })
    }

    /// How the actor stands.
    pub fn status(&self, actor: &Actor) -> Status {
        let next = StepName::new(actor.number, actor.position);
        let Some(action) = self.table.layout.action(next.actor, next.action) else {
            return Status::Finished;
        };
        if self.ready.actors().any(|ready| ready == actor.number) {
            return Status::Ready(next);
        }
        // An Add is not ready only where it runs over.
        match action::kind(action) {
            Some(Kind::Add) => Status::Over(next, over::reason(actor, action)),
            _ => Status::Waits(next, waits::reason(self.table, &self.report, next)),
        }
    }

    /// How the actor stands, in a line.
    pub fn stands(&self, actor: &Actor) -> String {
        let number = actor.number;
        let layout = &self.table.layout;
        match self.status(actor) {
            Status::Finished => format!("actor {number} is finished\n"),
            Status::Ready(next) => format!("actor {number} is ready: {}\n", step(layout, next)),
            Status::Waits(next, why) => {
                format!("actor {number} waits: {}; {why}\n", step(layout, next))
            }
            Status::Over(next, why) => {
                format!("actor {number} is over: {}; {why}\n", step(layout, next))
            }
        }
    }

    /// All of it: how the whole stands, then actors, pairs that have met, mailboxes, mutexes and, where the
    /// table has Notes, the journal. States that differ have other words.
    pub fn words(&self) -> String {
        let report = &self.report;
        let mut text = format!("{}\n", self.ending());
        text.extend(report.actors().map(|actor| self.actor(&actor)));
        text += &met(self.table, report);
        text.extend(report.mailboxes().map(|mailbox| self.mailbox(&mailbox)));
        text.extend(report.mutexes().map(|mutex| queue(&mutex)));
        if self.table.has(Kind::Note) {
            text += &journal(&report.journal());
        }
        text
    }

    /// How the whole stands.
    pub fn ending(&self) -> String {
        match self.ready.ending {
            Ending::Finished => "finished: every actor has run all its actions".to_owned(),
            Ending::Stuck => self.stuck(),
            Ending::Going => {
                let ready = count(self.ready.count as usize, "actor is", "actors are");
                format!("going: {ready} ready")
            }
        }
    }

    /// That nobody is ready; where a total runs over, who waits and who is over.
    fn stuck(&self) -> String {
        let (mut waits, mut over) = (Vec::new(), Vec::new());
        for actor in self.report.actors() {
            match self.status(&actor) {
                Status::Waits(..) => waits.push(actor.number),
                Status::Over(..) => over.push(actor.number),
                Status::Finished | Status::Ready(_) => {}
            }
        }
        if over.is_empty() {
            return "stuck: a deadlock, no actor is ready and not all are finished".to_owned();
        }
        let said = [(waits, "waits", "wait"), (over, "is over", "are over")];
        let said = said
            .iter()
            .filter_map(|(actors, one, several)| match &actors[..] {
                [] => None,
                [actor] => Some(format!("actor {actor} {one}")),
                actors => Some(format!("actors {} {several}", joined(actors))),
            });
        format!("stuck: no actor is ready; {}", joined(said))
    }

    /// The ready answer's mask, and whose bits are set in it.
    pub fn mask(&self) -> String {
        let Ready { mask, count, .. } = self.ready;
        let actors = joined(self.ready.actors());
        match count {
            0 => format!("mask {mask}: no actor"),
            1 => format!("mask {mask}: actor {actors}"),
            _ => format!("mask {mask}: actors {actors}"),
        }
    }

    /// Where the actor stands, and its cells.
    fn actor(&self, actor: &Actor) -> String {
        let Actor {
            number,
            position,
            cells,
            ..
        } = actor;
        let actions = self.actions(*number);
        let stands = match self.status(actor) {
            Status::Finished => "finished".to_owned(),
            Status::Ready(next) => format!("next {}, ready", step(&self.table.layout, next)),
            Status::Waits(next, why) => {
                format!("next {}, waits: {why}", step(&self.table.layout, next))
            }
            Status::Over(next, why) => {
                format!("next {}, over: {why}", step(&self.table.layout, next))
            }
        };
        let cells = spaced(cells);
        format!("actor {number}: at {position} of {actions}, {stands}\n  cells: {cells}\n")
    }

    /// What waits in the mailbox, the oldest first.
    fn mailbox(&self, mailbox: &Mailbox) -> String {
        let steps = mailbox.steps();
        let queue = in_turn(steps.map(|name| waiting(self.table, &self.report, name)));
        format!("mailbox {}: {queue}\n", mailbox.number())
    }

    fn actions(&self, actor: u8) -> usize {
        let script = self.table.layout.scripts.get(usize::from(actor));
        script.map_or(0, Vec::len)
    }
}

/// Who is queued for the mutex, and how deep each.
fn queue(mutex: &Mutex) -> String {
    let mut queue = mutex.queue();
    let queue = match queue.next() {
        None => "free".to_owned(),
        Some(owner) => {
            let owned = format!("actor {} owns it with depth {}", owner.actor, owner.depth);
            let others =
                queue.map(|next| format!("then actor {} with depth {}", next.actor, next.depth));
            joined([owned].into_iter().chain(others))
        }
    };
    format!("mutex {}: {queue}\n", mutex.number())
}

/// What Notes have written, the oldest first.
fn journal(journal: &Journal) -> String {
    let entries = journal.entries();
    let note = Kind::Note.name();
    let entries =
        in_turn(entries.map(|entry| format!("{} {note} with {}", entry.step, entry.value)));
    format!("journal: {entries}\n")
}

/// The items in their order, or that there are none.
fn in_turn(items: impl Iterator<Item = String>) -> String {
    let items: Vec<String> = items.collect();
    match items.is_empty() {
        true => "empty".to_owned(),
        false => items.join(", then "),
    }
}
