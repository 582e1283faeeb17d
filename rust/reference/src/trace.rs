//! An accepted schedule as the list of its steps.

use crate::follow::{Schedule, follow};
use crate::name::Name;
use crate::pair::dependent;
use crate::refusal::Refusal;
use crate::site::Site;
use crate::table::Table;

/// The steps of an accepted schedule. There are at most 256, for no name comes twice.
#[derive(Clone, Debug)]
pub struct Trace<'a> {
    table: &'a Table<'a>,
    names: Vec<Name>,
}

impl<'a> Trace<'a> {
    /// Steps `entries` from a fresh site: its trace, or the refusal.
    pub fn of(table: &'a Table, which: Schedule, entries: &[u8]) -> Result<Self, Refusal> {
        let mut names = Vec::new();
        let mut site = Site::fresh();
        let visit = |name, _: &_| names.push(name);
        follow(table, which, entries, &mut site, visit)?;
        Ok(Self { table, names })
    }

    /// The steps' names, in the schedule's order.
    pub fn names(&self) -> &[Name] {
        &self.names
    }

    /// Whether steps `k` and `k + 1` both exist and are independent.
    pub fn independent(&self, k: usize) -> bool {
        match self.names.get(k..k + 2) {
            Some(&[one, other]) => !dependent(self.table, one, other),
            _ => false,
        }
    }

    /// Exchanges steps `k` and `k + 1` if both exist and are independent; whether it did.
    pub fn exchange(&mut self, k: usize) -> bool {
        let may = self.independent(k);
        if may {
            self.names.swap(k, k + 1);
        }
        may
    }

    /// The schedule: each step's actor.
    pub fn schedule(&self) -> Vec<u8> {
        self.names().iter().map(|name| name.actor() as u8).collect()
    }
}
