//! The draw made for speed: who is ready is a mask, and after a step only those are asked again of whom
//! it can have changed something. What is ready stays so until it is stepped, and what is over or
//! finished stays so for good; so these are the actor that stepped and, where the step was a Send, a
//! Receive or an Unlock, those that wait.

use crate::action::Action;
use crate::make::room_and_table;
use crate::next::Next;
use crate::refusal::Refusal;
use crate::site::Site;
use crate::table::Table;

/// As [`crate::draw()`].
pub fn draw(table: &[u8], seed: u32, buffer: &mut [u8]) -> Result<usize, Refusal> {
    let table = room_and_table(table, buffer)?;
    let mut running = Running::fresh(&table);
    let mut x = seed;
    let mut length = 0;
    while running.ready != 0 {
        x = x.wrapping_mul(1_664_525).wrapping_add(1_013_904_223);
        let actor = nth(running.ready, (x >> 16) % running.ready.count_ones());
        running.step(actor);
        buffer[length] = actor as u8;
        length += 1;
    }
    Ok(length)
}

/// The actor of this rank among those of a mask.
fn nth(mut mask: u8, rank: u32) -> usize {
    for _ in 0..rank {
        mask &= mask - 1;
    }
    mask.trailing_zeros() as usize
}

/// A site, each actor's next action, who is ready and who waits.
struct Running<'a> {
    scripts: [&'a [[u8; 8]]; 8],
    site: Site,
    next: [Action; 8],
    ready: u8,
    waiting: u8,
}

impl<'a> Running<'a> {
    fn fresh(table: &Table<'a>) -> Self {
        let mut running = Self {
            scripts: table.scripts(),
            site: Site::fresh(),
            next: [Action::decode([0; 8]); 8],
            ready: 0,
            waiting: 0,
        };
        for actor in 0..table.actors() {
            running.come_to(actor);
        }
        running
    }

    /// Steps an actor that is ready.
    fn step(&mut self, actor: usize) {
        let action = self.next[actor];
        self.site.step(actor, &action);
        self.ready &= !(1 << actor);
        self.come_to(actor);
        if let Action::Send { .. } | Action::Receive { .. } | Action::Unlock { .. } = action {
            let mut waiting = self.waiting;
            while waiting != 0 {
                self.ask(waiting.trailing_zeros() as usize);
                waiting &= waiting - 1;
            }
        }
    }

    /// Takes up the action at the actor's position, if there is one.
    fn come_to(&mut self, actor: usize) {
        if let Some(&bytes) = self.scripts[actor].get(self.site.actor(actor).position) {
            self.next[actor] = Action::decode(bytes);
            self.ask(actor);
        }
    }

    /// Asks what the actor's next step is.
    fn ask(&mut self, actor: usize) {
        let (next, own) = (self.site.next(actor, &self.next[actor]), 1 << actor);
        self.ready &= !own;
        self.waiting &= !own;
        match next {
            Next::Taken { .. } => self.ready |= own,
            Next::Waits => self.waiting |= own,
            Next::Over => {}
        }
    }
}
