//! What a refusal is about, and what it points at, in words.

mod action;
mod entry;
mod exchanged;
mod header;
mod name;
mod text;

pub use exchanged::exchanged;
pub use text::place;

use crate::answer::Failure;
use crate::difference::{Pairs, difference};
use crate::source::Source;
use crate::state::State;
use crate::table::Table;
use order_engine::{Reason, Refusal, StepName, same};
use tables::Layout;

/// What a call was asked about.
#[derive(Clone, Copy, Debug)]
pub struct Asked<'a> {
    /// The table.
    pub table: &'a Source,
    /// The schedule, or the first of two.
    pub first: Option<&'a Source>,
    /// The second schedule.
    pub second: Option<&'a Source>,
    /// The steps.
    pub steps: &'a [StepName],
}

impl<'a> Asked<'a> {
    /// A question about a table alone.
    pub fn of(table: &'a Source) -> Self {
        Self {
            table,
            first: None,
            second: None,
            steps: &[],
        }
    }

    /// A question about a schedule.
    pub fn of_one(table: &'a Source, schedule: &'a Source) -> Self {
        Self {
            first: Some(schedule),
            ..Self::of(table)
        }
    }

    /// A question about two schedules.
    pub fn of_two(table: &'a Source, first: &'a Source, second: &'a Source) -> Self {
        Self {
            second: Some(second),
            ..Self::of_one(table, first)
        }
    }

    /// A question about steps.
    pub fn of_steps(table: &'a Source, steps: &'a [StepName]) -> Self {
        Self {
            steps,
            ..Self::of(table)
        }
    }

    /// The table, if the engine accepts it; otherwise the refusal in words.
    pub fn accepted(&self) -> Result<Table, Failure> {
        Table::of(self.table).map_err(|refusal| self.refused(refusal))
    }

    /// The state that the schedule leads to, if the engine accepts it; otherwise the refusal in words.
    pub fn reached<'b>(
        &self,
        table: &'b Table,
        buffer: &'b mut [u8],
    ) -> Result<State<'b>, Failure> {
        let schedule = self.first.map_or(&[][..], |schedule| schedule);
        State::after(table, schedule, buffer).map_err(|refusal| self.refused(refusal))
    }

    /// A refusal as the answer: what it is about, and what it points at.
    pub fn refused(&self, refusal: Refusal) -> Failure {
        let about = self.about(refusal.reason()).map(|source| {
            let (role, name) = (source.role(), source.name());
            format!("{role} is {name}\n")
        });
        let about: String = about.collect();
        let points = pointed(refusal, self);
        let hint = exchanged::words(refusal.reason(), self);
        Failure::Refused(format!("{refusal}\n{about}{points}{hint}"))
    }

    /// What a refusal is about.
    fn about(&self, reason: Reason) -> impl Iterator<Item = &'a Source> {
        let about = match self.stepped(reason) {
            Some(schedule) => [Some(schedule), None],
            None if reason == Reason::Different => [self.first, self.second],
            None => [Some(self.table), None],
        };
        about.into_iter().flatten()
    }

    /// The schedule whose entry is refused, where one is.
    fn stepped(&self, reason: Reason) -> Option<&'a Source> {
        match reason {
            Reason::NoActor | Reason::Finished | Reason::NotReady | Reason::Over => self.first,
            Reason::SecondNoActor
            | Reason::SecondFinished
            | Reason::SecondNotReady
            | Reason::SecondOver => self.second,
            _ => None,
        }
    }
}

/// What a refusal points at. A reason that has no words here is said by its sentence alone.
pub fn pointed(refusal: Refusal, asked: &Asked) -> String {
    let index = refusal.position() as usize;
    match refusal.reason() {
        Reason::ShortTable => header::length(asked.table),
        Reason::Edition => header::edition(asked.table),
        Reason::Count => header::counts(asked.table),
        Reason::Directory => header::directory(asked.table),
        Reason::TableEnd => header::end(asked.table, asked.table.length()),
        Reason::Kind | Reason::Range | Reason::Listed | Reason::Unused => {
            let layout = Layout::of(asked.table);
            layout.map_or_else(String::new, |layout| action::words(refusal, &layout))
        }
        Reason::NoStep => of_table(asked, |table| name::words(&table.layout, asked.steps)),
        Reason::Different => of_table(asked, |table| match (asked.first, asked.second) {
            (Some(first), Some(second)) => difference_of(table, first, second),
            _ => String::new(),
        }),
        reason => match asked.stepped(reason) {
            Some(schedule) => of_table(asked, |table| entry::words(table, schedule, index)),
            None => String::new(),
        },
    }
}

/// How two accepted schedules differ.
fn difference_of(table: &Table, first: &[u8], second: &[u8]) -> String {
    let answer = same(&table.bytes, first, second).ok();
    answer.map_or_else(String::new, |answer| {
        difference(table, first, second, &answer, Pairs::First)
    })
}

/// Words about an accepted table.
fn of_table(asked: &Asked, words: impl FnOnce(&Table) -> String) -> String {
    let table = Table::of(asked.table).ok();
    table.as_ref().map_or_else(String::new, words)
}
