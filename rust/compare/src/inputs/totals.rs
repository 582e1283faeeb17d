//! Tables whose Adds come to the most that a cell holds, or pass it: of two cells, and of one cell with
//! itself, whose double is never the most but one less.

use crate::inputs::mix::Mix;
use crate::inputs::rng::Rng;
use crate::inputs::sample::{Sample, Script, Shape};
use tables::Action;
use tables::action::{add, set};
use tables::layout::CELLS;

/// The least value whose double passes the most that a cell holds.
pub const HALF: u32 = 1 << 31;

/// The values at which sums of two cells turn.
pub const AROUND: [u32; 7] = [0, 1, HALF - 1, HALF, HALF + 1, u32::MAX - 1, u32::MAX];

/// A table of this shape with totals among actions that seldom or often wait.
pub fn table(rng: &mut Rng, shape: Shape) -> Sample {
    let mix = rng.pick(&[Mix::QUEUES, Mix::CONTENDED, Mix::WAITS]);
    let mut scripts = vec![Script::default(); shape.counts.len()];
    for (script, &count) in scripts.iter_mut().zip(&shape.counts) {
        while script.actions().len() < count {
            let left = count - script.actions().len();
            let total = total(rng);
            if total.len() <= left && rng.once_in(4) {
                total.into_iter().for_each(|action| script.push(action));
            } else {
                script.push(script.draw(rng, &shape, &mix));
            }
        }
    }
    Sample::of_scripts(shape, scripts)
}

/// The Sets and the Add of a total; every third passes the most, by one.
fn total(rng: &mut Rng) -> Vec<Action> {
    let past = u32::from(rng.once_in(3));
    let cell = rng.below(usize::from(CELLS)) as u8;
    if rng.once_in(2) {
        return doubled(cell, HALF - 1 + past).to_vec();
    }
    let other = (cell + rng.between(1, 7) as u8) % CELLS;
    let one = match rng.once_in(2) {
        true => rng.pick(&AROUND),
        false => rng.bits() as u32,
    };
    let one = one.max(past);
    summed([cell, other], [one, u32::MAX - one + past]).to_vec()
}

/// Sets two cells and adds the second to the first.
pub fn summed([cell, other]: [u8; 2], [one, two]: [u32; 2]) -> [Action; 3] {
    [set(cell, one), set(other, two), add(cell, other)]
}

/// Sets a cell and adds it to itself.
fn doubled(cell: u8, value: u32) -> [Action; 2] {
    [set(cell, value), add(cell, cell)]
}
