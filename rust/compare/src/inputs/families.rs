//! Families of random tables: as they should be, or spoilt.

use crate::inputs::damage;
use crate::inputs::rng::Rng;
use crate::inputs::sample::{Sample, Shape};
use reference::Reason;

/// A family: makes a table.
pub type Family = fn(&mut Rng) -> Vec<u8>;

/// The families, each as often as it shall have its turn.
pub const FAMILIES: [Family; 16] = [
    valid,
    valid,
    valid,
    outsized,
    aimed,
    aimed,
    aimed,
    aimed_twice,
    aimed_twice,
    aimed_twice,
    aimed_at_actions,
    aimed_at_actions,
    scattered,
    scattered,
    spliced,
    moved_border,
];

/// A table that is accepted.
pub fn valid(rng: &mut Rng) -> Vec<u8> {
    sample(rng).bytes
}

/// A table that is whole but for one number too large, or for having no actors.
pub fn outsized(rng: &mut Rng) -> Vec<u8> {
    let shape = Shape::outsized(rng);
    Sample::new(rng, shape).bytes
}

/// A table that deserves one refusal.
pub fn aimed(rng: &mut Rng) -> Vec<u8> {
    several(rng, 1, &Reason::OF_TABLE)
}

/// A table that deserves two refusals, often for one action: which comes first?
pub fn aimed_twice(rng: &mut Rng) -> Vec<u8> {
    several(rng, 2, &Reason::OF_TABLE)
}

/// A table that deserves three refusals for its actions, often for one of them.
pub fn aimed_at_actions(rng: &mut Rng) -> Vec<u8> {
    let of_actions = Reason::OF_TABLE.iter().copied();
    let of_actions: Vec<Reason> = of_actions
        .filter(|reason| *reason >= Reason::Kind)
        .collect();
    several(rng, 3, &of_actions)
}

/// A table with a few bytes changed, wherever they lie.
pub fn scattered(rng: &mut Rng) -> Vec<u8> {
    let mut bytes = sample(rng).bytes;
    damage::scatter(rng, &mut bytes);
    bytes
}

/// A table with an action too few or too many.
pub fn spliced(rng: &mut Rng) -> Vec<u8> {
    let mut sample = sample(rng);
    damage::splice(rng, &mut sample);
    sample.bytes
}

/// A table with an action given to the neighbouring actor.
pub fn moved_border(rng: &mut Rng) -> Vec<u8> {
    let mut sample = sample(rng);
    damage::move_border(rng, &mut sample);
    sample.bytes
}

/// A valid table of any shape.
fn sample(rng: &mut Rng) -> Sample {
    let shape = Shape::any(rng);
    Sample::new(rng, shape)
}

/// A table damaged `times` times with these aims, two times in three at the same action as before.
fn several(rng: &mut Rng, times: usize, aims: &[Reason]) -> Vec<u8> {
    let mut sample = sample(rng);
    let mut place = sample.place(rng);
    for _ in 0..times {
        let aim = rng.pick(aims);
        damage::aim(rng, &mut sample, aim, place);
        if rng.once_in(3) {
            place = sample.place(rng);
        }
    }
    sample.bytes
}
