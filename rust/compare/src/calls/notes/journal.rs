//! What journals must have held.

use super::has_notes;
use crate::harness::demands::Demands;
use crate::harness::tally::Tally;
use reference::journal::Entry;
use reference::{Action, Name, Next, Site, Table, check};
use std::collections::BTreeSet;

/// What a schedule of a table with Notes led to.
#[derive(Default)]
struct Noted {
    journal: Vec<Entry>,
    /// A Note's cell holds another value at the end.
    changed: bool,
    /// A Note came right after its actor had picked up a value into its cell.
    picked_up: bool,
}

/// Something that must have been met: in words, and whether it was.
type Corner = (&'static str, fn(&Noted) -> bool);

const CORNERS: [Corner; 10] = [
    ("Notes, and an empty journal", |noted| {
        noted.journal.is_empty()
    }),
    ("a journal of one entry", |noted| noted.journal.len() == 1),
    ("a journal of several entries", |noted| {
        (2..Name::COUNT).contains(&noted.journal.len())
    }),
    ("a journal of 256 entries", |noted| {
        noted.journal.len() == Name::COUNT
    }),
    ("several entries of one actor alone", |noted| {
        noted.journal.len() > 1 && noted.actors() == 1
    }),
    ("entries of eight actors", |noted| noted.actors() == 8),
    ("a value changed before its Note", |noted| {
        noted.journal.iter().any(|entry| entry.value != 0)
    }),
    ("a value changed after its Note", |noted| noted.changed),
    ("a value of four bytes in the journal", |noted| {
        noted.journal.iter().any(|entry| entry.value >= 1 << 24)
    }),
    ("a Note right after a value was picked up", |noted| {
        noted.picked_up
    }),
];

impl Noted {
    /// What an accepted schedule led to; none where the table has no Note.
    fn of(table: &Table, schedule: &[u8]) -> Option<Self> {
        if !has_notes(table) {
            return None;
        }
        let mut noted = Self::default();
        let mut site = Site::fresh();
        // By actor: the cell into which its last step picked a value up.
        let mut picked = [None; 8];
        for &entry in schedule {
            let actor = usize::from(entry);
            let step = table.action(actor, site.actor(actor).position);
            let next = site.step(actor, &step);
            if let Action::Note { cell } = step {
                noted.picked_up |= picked[actor] == Some(cell);
            }
            picked[actor] = picks_up(table, actor, &step, next);
        }
        noted.journal = site.journal().collect();
        noted.changed = noted.journal.iter().any(|entry| {
            let actor = entry.step.actor();
            match table.action(actor, entry.step.action()) {
                Action::Note { cell } => site.actor(actor).cell(cell) != entry.value,
                _ => false,
            }
        });
        Some(noted)
    }

    /// How many actors wrote into the journal.
    fn actors(&self) -> usize {
        let actors = self.journal.iter().map(|entry| entry.step.actor());
        actors.collect::<BTreeSet<usize>>().len()
    }
}

/// The cell into which a step picked a Receive's value up and left it.
fn picks_up(table: &Table, actor: usize, step: &Action, next: Next) -> Option<u8> {
    let (Action::TestAny { result, actions } | Action::WaitAny { result, actions }) = step else {
        return None;
    };
    let Next::Taken { finds } = next else {
        return None;
    };
    let place = (finds as usize).checked_sub(1)?;
    match table.action(actor, usize::from(actions.numbers()[place])) {
        Action::Receive { cell, .. } if cell != *result => Some(cell),
        _ => None,
    }
}

/// What a call must have met, and how often.
pub fn demands(demands: Demands, least: u64) -> Demands {
    demands.notes(&CORNERS.map(|(words, _)| words), least)
}

/// Notes what an accepted schedule of an accepted table led to.
pub fn note(tally: &mut Tally, table: &[u8], schedule: &[u8]) {
    let table = check(table).expect("the table is accepted");
    let Some(noted) = Noted::of(&table, schedule) else {
        return;
    };
    for (words, met) in CORNERS {
        if met(&noted) {
            tally.note(words);
        }
    }
}
