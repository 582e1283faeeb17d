//! Accepted schedules, made by stepping the reference.

use crate::inputs::rng::Rng;
use reference::{Action, Ready, Site, Status, Table};

/// A schedule under way: entries accepted so far and the state they led to.
pub struct Walk<'a> {
    table: &'a Table<'a>,
    site: Site,
    /// The entries.
    pub entries: Vec<u8>,
}

impl<'a> Walk<'a> {
    /// The empty schedule.
    pub fn new(table: &'a Table<'a>) -> Self {
        Self {
            table,
            site: Site::fresh(),
            entries: Vec::new(),
        }
    }

    /// The walk along an accepted schedule.
    pub fn along(table: &'a Table<'a>, schedule: &[u8]) -> Self {
        let mut walk = Self::new(table);
        for &actor in schedule {
            assert!(walk.step(usize::from(actor)), "the schedule is accepted");
        }
        walk
    }

    /// Who is ready, bit by bit.
    pub fn ready(&self) -> u32 {
        Ready::of(self.table, &self.site).mask
    }

    /// Each actor's position.
    pub fn positions(&self) -> [usize; 8] {
        std::array::from_fn(|actor| self.site.actor(actor).position)
    }

    /// How `actor` stands.
    pub fn status(&self, actor: usize) -> Status {
        Status::in_state(self.table, &self.site, actor)
    }

    /// Whether `actor` has run all its actions.
    pub fn finished(&self, actor: usize) -> bool {
        self.site.actor(actor).position == self.table.actions(actor)
    }

    /// Steps `actor` if it is ready; whether it was.
    pub fn step(&mut self, actor: usize) -> bool {
        if self.finished(actor) {
            return false;
        }
        let position = self.site.actor(actor).position;
        let action: Action = self.table.action(actor, position);
        let ready = self.site.step(actor, &action).is_taken();
        if ready {
            self.entries.push(actor as u8);
        }
        ready
    }

    /// Steps random ready actors of those in `allowed` until `length` entries are made or none is
    /// left.
    pub fn wander(&mut self, rng: &mut Rng, length: usize, mut allowed: impl FnMut(usize) -> bool) {
        // How often an actor goes on as long as it can.
        let stay = rng.pick(&[1, 2, 8]);
        while self.entries.len() < length {
            let ready = self.ready();
            let may = |actor: &usize| ready >> actor & 1 == 1;
            let open: Vec<usize> = (0..8).filter(may).filter(|&a| allowed(a)).collect();
            if open.is_empty() {
                return;
            }
            let last = self.entries.last().map(|&actor| usize::from(actor));
            let again = last.filter(|actor| open.contains(actor) && !rng.once_in(stay));
            let actor = again.unwrap_or_else(|| rng.pick(&open));
            self.step(actor);
        }
    }
}

/// An accepted schedule of random length: to the end, or cut.
pub fn accepted(rng: &mut Rng, table: &Table, known: Option<Vec<u8>>) -> Vec<u8> {
    let mut entries = match known {
        Some(schedule) if rng.once_in(2) => schedule,
        _ => {
            let mut walk = Walk::new(table);
            walk.wander(rng, usize::MAX, |_| true);
            walk.entries
        }
    };
    if rng.once_in(2) {
        entries.truncate(rng.between(0, entries.len()));
    }
    entries
}
