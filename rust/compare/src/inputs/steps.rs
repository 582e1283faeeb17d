//! Tables with a schedule: inputs for run and ready.

use crate::inputs::contended::{Size, table};
use crate::inputs::deep::{one_mailbox, one_mutex};
use crate::inputs::entries::{Fault, Place, fault, spoilt};
use crate::inputs::families::FAMILIES;
use crate::inputs::locks;
use crate::inputs::mix::Mix;
use crate::inputs::notes::{every_action, one_actor};
use crate::inputs::rng::Rng;
use crate::inputs::sample::{Sample, Shape};
use crate::inputs::totals;
use crate::inputs::walk::accepted;
use reference::check;

/// A table and a schedule.
pub struct Steps {
    /// The table.
    pub table: Vec<u8>,
    /// The schedule.
    pub schedule: Vec<u8>,
}

impl Steps {
    /// The table and the schedule, as a call reads them.
    pub fn slices(self) -> [Vec<u8>; 3] {
        [self.table, self.schedule, Vec::new()]
    }

    /// One of any sort: accepted, refused at an entry, or with a table that is refused.
    pub fn any(rng: &mut Rng) -> Self {
        match rng.below(512) {
            0..28 => Self::deep(rng),
            28..256 => Self::accepted(rng),
            256..448 => Self::refused(rng),
            448..480 => Self::noise(rng),
            _ => Self::damaged(rng),
        }
    }

    /// An accepted schedule, full or cut.
    pub fn accepted(rng: &mut Rng) -> Self {
        let size = Size::any(rng);
        let (sample, known) = table(rng, size);
        let checked = check(&sample.bytes).expect("the table is right");
        let schedule = accepted(rng, &checked, known);
        Self {
            table: sample.bytes,
            schedule,
        }
    }

    /// A queue or the journal filled, or locked again, and the schedule cut in every second.
    fn deep(rng: &mut Rng) -> Self {
        let queues = [one_mailbox, one_mutex, one_mutex];
        let journal = [every_action, one_actor];
        let depths = [
            locks::alone,
            locks::alone,
            locks::every_queue,
            locks::nested,
        ];
        let fills = [&queues[..], &journal, &depths].concat();
        let fill = rng.pick(&fills);
        let (table, mut schedule) = fill(rng);
        if rng.once_in(2) {
            schedule.truncate(rng.between(0, schedule.len()));
        }
        Self { table, schedule }
    }

    /// A schedule with a refused entry; where the table has no such entry, with none.
    fn refused(rng: &mut Rng) -> Self {
        let (fault, place) = fault(rng);
        let (sample, known) = suited(rng, fault, place);
        let checked = check(&sample.bytes).expect("the table is right");
        let way = accepted(rng, &checked, known);
        let schedule = spoilt(rng, &checked, &way, fault, place).unwrap_or(way);
        Self {
            table: sample.bytes,
            schedule,
        }
    }

    /// Entries that nobody chose.
    fn noise(rng: &mut Rng) -> Self {
        let size = Size::any(rng);
        let (sample, _) = table(rng, size);
        let schedule = noise(rng, sample.shape.counts.len());
        Self {
            table: sample.bytes,
            schedule,
        }
    }

    /// A table that is mostly refused, with entries that nobody chose.
    fn damaged(rng: &mut Rng) -> Self {
        let family = rng.pick(&FAMILIES);
        Self {
            table: family(rng),
            schedule: noise(rng, 8),
        }
    }
}

/// A table in which the fault is not rare at such a place.
pub fn suited(rng: &mut Rng, fault: Fault, place: Place) -> (Sample, Option<Vec<u8>>) {
    let size = Size::any(rng);
    let mut shape: Shape = size.shape(rng);
    match (fault, place) {
        (Fault::Finished, Place::First) => {
            let idle = rng.below(shape.counts.len());
            shape.counts[idle] = 0;
            (Sample::mixed(rng, shape, &Mix::CONTENDED), None)
        }
        (Fault::NotReady, _) => {
            shape.mailboxes = shape.mailboxes.max(1);
            shape.mutexes = shape.mutexes.max(1);
            (Sample::mixed(rng, shape, &Mix::WAITS), None)
        }
        (Fault::Over, _) => (totals::table(rng, shape), None),
        _ => table(rng, size),
    }
}

/// Up to a dozen entries around the actors' numbers.
pub fn noise(rng: &mut Rng, actors: usize) -> Vec<u8> {
    let length = rng.below(12);
    (0..length)
        .map(|_| match rng.below(30) {
            0 => rng.byte(),
            _ => rng.below(actors + 1) as u8,
        })
        .collect()
}
