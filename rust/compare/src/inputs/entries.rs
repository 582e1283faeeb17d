//! Schedules with an entry that is refused, for each reason and at each place.

use crate::inputs::rng::Rng;
use crate::inputs::walk::Walk;
use reference::{Status, Table};

/// Why an entry is refused.
#[derive(Clone, Copy, PartialEq, Eq, Debug)]
pub enum Fault {
    /// No such actor.
    NoActor,
    /// A finished actor.
    Finished,
    /// An actor that waits.
    NotReady,
    /// An actor whose Add runs over. None is at the first entry.
    Over,
}

/// The four of them.
const FAULTS: [Fault; 4] = [
    Fault::NoActor,
    Fault::Finished,
    Fault::NotReady,
    Fault::Over,
];

/// Where the refused entry stands.
#[derive(Clone, Copy, PartialEq, Eq, Debug)]
pub enum Place {
    /// Before all others.
    First,
    /// Among others.
    Middle,
    /// After all others.
    Last,
}

/// The three of them.
const PLACES: [Place; 3] = [Place::First, Place::Middle, Place::Last];

/// A fault, and a place where it can stand.
pub fn fault(rng: &mut Rng) -> (Fault, Place) {
    match rng.pick(&FAULTS) {
        Fault::Over => (Fault::Over, rng.pick(&PLACES[1..])),
        fault => (fault, rng.pick(&PLACES)),
    }
}

/// A schedule with a refused entry, made from the accepted one. None where no state along it has a
/// `fault` at such a place.
pub fn spoilt(
    rng: &mut Rng,
    table: &Table,
    accepted: &[u8],
    fault: Fault,
    place: Place,
) -> Option<Vec<u8>> {
    let length = match place {
        Place::First => 0,
        _ => rng.between(1.min(accepted.len()), accepted.len()),
    };
    let mut walk = Walk::along(table, &accepted[..length]);
    let mut rest = accepted[length..].iter();
    let entry = loop {
        if let Some(entry) = entry(rng, table, &walk, fault) {
            break entry;
        }
        if place == Place::First {
            return None;
        }
        walk.step(usize::from(*rest.next()?));
    };
    let mut schedule = walk.entries;
    schedule.push(entry);
    if place != Place::Last {
        schedule.extend(tail(rng, table, rest.as_slice()));
    }
    Some(schedule)
}

/// An entry that is refused for `fault` in the walk's state, if there is one.
fn entry(rng: &mut Rng, table: &Table, walk: &Walk, fault: Fault) -> Option<u8> {
    let actors = table.actors();
    let status = match fault {
        Fault::NoActor => {
            let first = actors as u8;
            let known = rng.below(actors) as u8;
            // The low bits of some name an actor that exists.
            return Some(rng.pick(&[first, first, 8, 255, known + 8, known + 128, known + 32]));
        }
        Fault::Finished => Status::Finished,
        Fault::NotReady => Status::Waits,
        Fault::Over => Status::Over,
    };
    let fits = |&actor: &usize| walk.status(actor) == status;
    let open: Vec<usize> = (0..actors).filter(fits).collect();
    (!open.is_empty()).then(|| rng.pick(&open) as u8)
}

/// Entries that nothing may depend on: those that were left, or any; seldom very many.
pub fn tail(rng: &mut Rng, table: &Table, rest: &[u8]) -> Vec<u8> {
    let length = match rng.below(600) {
        0 => rng.pick(&[65_535, 65_536, 70_000]),
        1..20 => rng.between(200, 600),
        _ => rng.between(1, 6),
    };
    if rng.once_in(2) && !rest.is_empty() {
        return rest.to_vec();
    }
    (0..length)
        .map(|_| rng.below(table.actors() + 2) as u8)
        .collect()
}
