//! Tables and schedules that fill a queue: of a mailbox, and of a mutex.

use crate::inputs::mix::Mix;
use crate::inputs::rng::Rng;
use crate::inputs::sample::{Sample, Script, Shape};
use crate::inputs::walk::Walk;
use reference::check;
use tables::layout::{CELLS, MOST, MOST_ACTIONS};
use tables::{Kind, action};

/// A maximal table whose every action goes to one side of one mailbox, but for a Set in every
/// second, run to its end.
pub fn one_mailbox(rng: &mut Rng) -> (Vec<u8>, Vec<u8>) {
    let mut shape = Shape::maximal();
    shape.mailboxes = rng.pick(&[1, MOST]);
    let mailbox = rng.below(usize::from(shape.mailboxes)) as u8;
    let side = rng.pick(&[Kind::Send, Kind::Receive]);
    let mut scripts = vec![Script::default(); usize::from(MOST)];
    if rng.once_in(2) {
        let actor = rng.below(scripts.len());
        scripts[actor].push(action::set(1, u32::from(rng.byte())));
    }
    for script in &mut scripts {
        while script.actions().len() < MOST_ACTIONS {
            let cell = rng.below(usize::from(CELLS)) as u8;
            script.push(action::two(side, mailbox, cell));
        }
    }
    run_out(rng, shape, scripts, |_| true)
}

/// A table of eight actors that all begin with a Lock of one mutex and go on with a few steps around
/// mutexes, the first of them the Unlock in every second. All lock before any goes on.
pub fn one_mutex(rng: &mut Rng) -> (Vec<u8>, Vec<u8>) {
    let few = rng.between(1, 5);
    let shape = Shape {
        mailboxes: 1,
        mutexes: rng.pick(&[1, 4, MOST]),
        counts: vec![few + 1; usize::from(MOST)],
    };
    let mutex = rng.below(usize::from(shape.mutexes)) as u8;
    let unlock = rng.once_in(2);
    let mut scripts = vec![Script::default(); usize::from(MOST)];
    for script in &mut scripts {
        script.push(action::lock(mutex));
        if unlock {
            script.push(action::unlock(mutex));
        }
        while script.actions().len() <= few {
            script.push(script.draw(rng, &shape, &Mix::MUTEXES));
        }
    }
    run_out(rng, shape, scripts, |position| position == 0)
}

/// The table of these actions, and a schedule: first each actor's steps at positions that come
/// `early`, in any order, then whatever is ready, to the end.
pub(super) fn run_out(
    rng: &mut Rng,
    shape: Shape,
    scripts: Vec<Script>,
    early: impl Fn(usize) -> bool,
) -> (Vec<u8>, Vec<u8>) {
    let table = Sample::of_scripts(shape, scripts).bytes;
    let checked = check(&table).expect("the table is right");
    let mut walk = Walk::new(&checked);
    loop {
        let before = walk.entries.len();
        let positions = walk.positions();
        walk.wander(rng, before + 1, |actor| early(positions[actor]));
        if walk.entries.len() == before {
            break;
        }
    }
    walk.wander(rng, usize::MAX, |_| true);
    let schedule = walk.entries;
    (table, schedule)
}
