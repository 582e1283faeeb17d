//! The state of a site, and the step of each kind of action.

use crate::action::{Action, List};
use crate::actor::Actor;
use crate::communication::{Communication, Stage};
use crate::journal::{Entry, Journal};
use crate::mailbox::{Mailbox, Side};
use crate::mutex::{Mutex, Queued};
use crate::name::Name;
use crate::next::Next;

/// All that steps change. Holds room for the largest table.
#[derive(Clone, Debug)]
pub struct Site {
    actors: [Actor; 8],
    communications: [Communication; Name::COUNT],
    mailboxes: [Mailbox; 8],
    mutexes: [Mutex; 8],
    journal: Journal,
}

impl Site {
    /// A fresh site, which holds nothing yet.
    pub fn fresh() -> Self {
        Self {
            actors: [Actor::default(); 8],
            communications: [Communication::default(); Name::COUNT],
            mailboxes: std::array::from_fn(|_| Mailbox::empty()),
            mutexes: [Mutex::default(); 8],
            journal: Journal::empty(),
        }
    }

    /// The record of `actor`.
    pub fn actor(&self, actor: usize) -> &Actor {
        &self.actors[actor]
    }

    /// The first `count` communications of `actor`, one for each of its actions.
    pub fn communications(&self, actor: usize, count: usize) -> &[Communication] {
        let first = Name::new(actor, 0).index();
        &self.communications[first..first + count]
    }

    /// The queue of `mailbox`, oldest first.
    pub fn mailbox(&self, mailbox: usize) -> &[Name] {
        self.mailboxes[mailbox].queue()
    }

    /// The queue of `mutex`, the owner first.
    pub fn mutex(&self, mutex: usize) -> impl ExactSizeIterator<Item = Queued> + use<> {
        self.mutexes[mutex].queue()
    }

    /// The journal, oldest entry first.
    pub fn journal(&self) -> impl ExactSizeIterator<Item = Entry> + '_ {
        self.journal.entries()
    }

    /// What `action` is as the next of `actor`.
    #[inline(always)]
    pub fn next(&self, actor: usize, action: &Action) -> Next {
        match action {
            Action::Add { cell, other } => Next::of_sum(self.actors[actor].sum(*cell, *other)),
            Action::TestAny { actions, .. } => Next::finding(self.done_place(actor, actions)),
            Action::WaitAny { actions, .. } => Next::at_place(self.done_place(actor, actions)),
            Action::MutexTest { mutexes, .. } => Next::finding(self.owned_place(actor, mutexes)),
            Action::MutexWait { mutexes, .. } => Next::at_place(self.owned_place(actor, mutexes)),
            // Always ready.
            _ => Next::finding(0),
        }
    }

    /// Runs `action`, the next of `actor`, and says what it was. Nothing changes unless it is taken.
    #[inline(always)]
    pub fn step(&mut self, actor: usize, action: &Action) -> Next {
        let next = self.next(actor, action);
        let Next::Taken { finds } = next else {
            return next;
        };
        match *action {
            Action::Set { cell, value } => self.actors[actor].set(cell, value),
            Action::Add { cell, .. } => self.actors[actor].set(cell, finds),
            Action::Lesser { cell, other } => self.actors[actor].lesser(cell, other),
            Action::Send { mailbox, cell } => self.send(actor, mailbox, cell),
            Action::Receive { mailbox, cell } => self.receive(actor, mailbox, cell),
            Action::TestAny {
                result,
                ref actions,
            }
            | Action::WaitAny {
                result,
                ref actions,
            } => self.pick_up(actor, result, actions, finds),
            Action::Lock { mutex } => self.mutexes[usize::from(mutex)].lock(actor),
            Action::Unlock { mutex } => self.mutexes[usize::from(mutex)].unlock(actor),
            Action::MutexTest { result, .. } | Action::MutexWait { result, .. } => {
                self.actors[actor].set(result, finds);
            }
            Action::Note { cell } => self.note(actor, cell),
        }
        self.actors[actor].position += 1;
        next
    }

    /// The name of the next step of `actor`.
    fn name(&self, actor: usize) -> Name {
        Name::new(actor, self.actors[actor].position)
    }

    /// Keeps the cell's value, and pairs with the oldest pending Receive or joins the queue.
    fn send(&mut self, actor: usize, mailbox: u8, cell: u8) {
        let own = self.name(actor);
        let value = self.actors[actor].cell(cell);
        let mut communication = Communication::send(value);
        if let Some(other) = self.mailboxes[usize::from(mailbox)].meet(Side::Send, own) {
            let received = &mut self.communications[other.index()];
            *received = received.done(own, value);
            communication = communication.done(other, value);
        }
        self.communications[own.index()] = communication;
    }

    /// Pairs with the oldest pending Send, or joins the queue.
    fn receive(&mut self, actor: usize, mailbox: u8, cell: u8) {
        let own = self.name(actor);
        let mut communication = Communication::receive(cell);
        if let Some(other) = self.mailboxes[usize::from(mailbox)].meet(Side::Receive, own) {
            let sent = &mut self.communications[other.index()];
            let value = sent.value;
            *sent = sent.done(own, value);
            communication = communication.done(other, value);
        }
        self.communications[own.index()] = communication;
    }

    /// Adds the step and the cell's value at the end of the journal.
    fn note(&mut self, actor: usize, cell: u8) {
        let entry = Entry {
            step: self.name(actor),
            value: self.actors[actor].cell(cell),
        };
        self.journal.add(entry);
    }

    /// The first place, from 1, whose communication is done, or 0.
    fn done_place(&self, actor: usize, actions: &List) -> usize {
        actions.place(|number| {
            let name = Name::new(actor, usize::from(number));
            self.communications[name.index()].stage == Stage::Done
        })
    }

    /// The first place, from 1, whose mutex `actor` owns, or 0.
    fn owned_place(&self, actor: usize, mutexes: &List) -> usize {
        mutexes.place(|mutex| self.mutexes[usize::from(mutex)].owned_by(actor))
    }

    /// Writes the value of the Receive at `place`, if it is one, then `place`.
    fn pick_up(&mut self, actor: usize, result: u8, actions: &List, place: u32) {
        let record = &mut self.actors[actor];
        if place > 0 {
            let number = actions.numbers()[place as usize - 1];
            let name = Name::new(actor, usize::from(number));
            let communication = &self.communications[name.index()];
            if let Some(cell) = communication.cell() {
                record.set(cell, communication.value);
            }
        }
        record.set(result, place);
    }
}
