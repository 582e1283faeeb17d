//! Tables with two schedules: inputs for same and route.

use crate::inputs::contended::{Size, table};
use crate::inputs::entries::{Fault, fault, spoilt};
use crate::inputs::families::FAMILIES;
use crate::inputs::interleave::{exchanged, interleaved, twisted};
use crate::inputs::locks;
use crate::inputs::notes::{every_action, one_actor};
use crate::inputs::rng::Rng;
use crate::inputs::steps::{noise, suited};
use crate::inputs::walk::{Walk, accepted};
use reference::trace::Trace;
use reference::{Schedule, Table, check};

/// A table and two schedules.
pub struct Twins {
    /// The table.
    pub table: Vec<u8>,
    /// The first schedule.
    pub first: Vec<u8>,
    /// The second schedule.
    pub second: Vec<u8>,
}

impl Twins {
    /// The table, the first schedule and the second.
    pub fn slices(self) -> [Vec<u8>; 3] {
        [self.table, self.first, self.second]
    }

    /// Of any sort: same, different, or refused.
    pub fn any(rng: &mut Rng) -> Self {
        match rng.below(35) {
            0 => Self::damaged(rng),
            32 => Self::noted(rng),
            33 | 34 => Self::locked(rng),
            1..6 => Self::refused(rng),
            6..15 => Self::aimed(rng, same),
            15..19 => Self::aimed(rng, interleaved),
            19..25 => Self::aimed(rng, twisted),
            25 => Self::aimed(rng, neighbours),
            26..28 => Self::aimed(rng, other_names),
            _ => Self::aimed(rng, other_length).either_way(rng),
        }
    }

    /// A second schedule made from the first in some way, if one of a few tables allows it.
    fn aimed(rng: &mut Rng, second: Second) -> Self {
        let mut tries = 0;
        loop {
            let size = Size::any(rng);
            let (sample, known) = table(rng, size);
            let checked = check(&sample.bytes).expect("the table is right");
            let first = accepted(rng, &checked, known);
            tries += 1;
            let made = second(rng, &checked, &first);
            if made.is_some() || tries == 6 {
                let second = made.unwrap_or_else(|| exchanged(rng, &checked, &first));
                return Self {
                    table: sample.bytes,
                    first,
                    second,
                };
            }
        }
    }

    /// A table whose journal grows, and two schedules of all its steps: same, or hardly different.
    fn noted(rng: &mut Rng) -> Self {
        let make = rng.pick(&[every_action, one_actor]);
        let (bytes, first) = make(rng);
        let checked = check(&bytes).expect("the table is right");
        let second = rng.pick(&[neighbours as Second, twisted, same]);
        let second = second(rng, &checked, &first).unwrap_or_else(|| first.clone());
        Self {
            table: bytes,
            first,
            second,
        }
    }

    /// A table whose actors lock more than once, and two schedules of the same steps: same, or hardly different.
    pub fn locked(rng: &mut Rng) -> Self {
        let make = match rng.below(16) {
            0 => locks::every_queue,
            1..4 => locks::alone,
            _ => locks::nested,
        };
        let (bytes, mut first) = make(rng);
        let checked = check(&bytes).expect("the table is right");
        if rng.once_in(2) {
            first.truncate(rng.between(0, first.len()));
        }
        let second = rng.pick(&[neighbours as Second, twisted, twisted, same, same]);
        let second = second(rng, &checked, &first).unwrap_or_else(|| first.clone());
        Self {
            table: bytes,
            first,
            second,
        }
    }

    /// The schedules in either order.
    pub fn either_way(mut self, rng: &mut Rng) -> Self {
        if rng.once_in(2) {
            std::mem::swap(&mut self.first, &mut self.second);
        }
        self
    }

    /// Either schedule with a refused entry, or both.
    fn refused(rng: &mut Rng) -> Self {
        let (fault, place) = fault(rng);
        let (sample, known) = suited(rng, fault, place);
        let checked = check(&sample.bytes).expect("the table is right");
        let mut first = accepted(rng, &checked, known);
        let mut second = exchanged(rng, &checked, &first);
        let which = rng.below(5);
        if which < 3 {
            second = spoilt(rng, &checked, &second, fault, place).unwrap_or(second);
        }
        if which > 1 {
            let fault = rng.pick(&[fault, fault, Fault::NoActor]);
            first = spoilt(rng, &checked, &first, fault, place).unwrap_or(first);
        }
        Self {
            table: sample.bytes,
            first,
            second,
        }
    }

    /// A table that is mostly refused.
    pub fn damaged(rng: &mut Rng) -> Self {
        let family = rng.pick(&FAMILIES);
        Self {
            table: family(rng),
            first: noise(rng, 8),
            second: noise(rng, 8),
        }
    }
}

/// Makes an accepted schedule from another, where it can.
type Second = fn(&mut Rng, &Table, &[u8]) -> Option<Vec<u8>>;

/// By exchanges, seldom none.
fn same(rng: &mut Rng, table: &Table, first: &[u8]) -> Option<Vec<u8>> {
    let second = exchanged(rng, table, first);
    (second != first || rng.once_in(12)).then_some(second)
}

/// Two neighbours of different actors in other order, and nothing else.
fn neighbours(rng: &mut Rng, table: &Table, first: &[u8]) -> Option<Vec<u8>> {
    let k = rng.below(first.len().max(2) - 1);
    let mut schedule = first.to_vec();
    schedule.get(k..k + 2)?;
    schedule.swap(k, k + 1);
    let accepted = Trace::of(table, Schedule::First, &schedule).is_ok();
    (accepted && schedule != first).then_some(schedule)
}

/// As long as the first if possible, with other names mostly.
fn other_names(rng: &mut Rng, table: &Table, first: &[u8]) -> Option<Vec<u8>> {
    let mut walk = Walk::new(table);
    walk.wander(rng, first.len(), |_| true);
    Some(walk.entries)
}

/// Shorter or longer mostly, and the same as far as it goes.
fn other_length(rng: &mut Rng, table: &Table, first: &[u8]) -> Option<Vec<u8>> {
    let mut schedule = exchanged(rng, table, first);
    schedule.truncate(rng.between(0, schedule.len()));
    let mut walk = Walk::along(table, &schedule);
    let length = schedule.len() + rng.below(3);
    walk.wander(rng, length, |_| true);
    Some(walk.entries)
}
