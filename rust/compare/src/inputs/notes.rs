//! Tables whose journal grows: every action a Note, or all those of one actor; each with a schedule that
//! runs it out.

use crate::inputs::deep::run_out;
use crate::inputs::mix::Mix;
use crate::inputs::rng::Rng;
use crate::inputs::sample::{Script, Shape};
use tables::layout::CELLS;
use tables::{Kind, action};

/// Every action of a maximal table is a Note, but for a Set in every second.
pub fn every_action(rng: &mut Rng) -> (Vec<u8>, Vec<u8>) {
    let mut shape = Shape::maximal();
    if rng.once_in(3) {
        (shape.mailboxes, shape.mutexes) = (0, 0);
    }
    let mut scripts = vec![Script::default(); shape.counts.len()];
    if rng.once_in(2) {
        let actor = rng.below(scripts.len());
        scripts[actor].push(action::set(1, rng.bits() as u32));
    }
    for (script, &count) in scripts.iter_mut().zip(&shape.counts) {
        while script.actions().len() < count {
            script.push(noted(rng));
        }
    }
    run_out(rng, shape, scripts, |_| true)
}

/// One actor alone has Notes: two of three of its actions, among Sets.
pub fn one_actor(rng: &mut Rng) -> (Vec<u8>, Vec<u8>) {
    let mut shape = Shape::any(rng);
    let actor = rng.below(shape.counts.len());
    shape.counts[actor] = shape.counts[actor].max(2);
    shape.mailboxes = shape.mailboxes.max(1);
    let others = rng.pick(&Mix::ALL).without(Kind::Note);
    let mut scripts = vec![Script::default(); shape.counts.len()];
    for (number, script) in scripts.iter_mut().enumerate() {
        while script.actions().len() < shape.counts[number] {
            let next = match (number == actor, rng.once_in(3)) {
                (true, false) => noted(rng),
                (true, true) => action::set(cell(rng), rng.bits() as u32),
                (false, _) => script.draw(rng, &shape, &others),
            };
            script.push(next);
        }
    }
    run_out(rng, shape, scripts, |_| true)
}

fn noted(rng: &mut Rng) -> tables::Action {
    action::note(cell(rng))
}

fn cell(rng: &mut Rng) -> u8 {
    rng.below(usize::from(CELLS)) as u8
}
