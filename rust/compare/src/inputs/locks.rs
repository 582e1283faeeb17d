//! Tables whose actors lock a mutex more than once, each with a schedule that runs it out: Locks alone, every
//! mutex's queue filled, routines that lock again.

use crate::inputs::deep::run_out;
use crate::inputs::mix::Mix;
use crate::inputs::rng::Rng;
use crate::inputs::sample::{Script, Shape};
use tables::layout::{MOST, MOST_ACTIONS};
use tables::{Action, Kind, action};

/// Every action is a Lock of one mutex, up to 32 for an actor.
pub fn alone(rng: &mut Rng) -> (Vec<u8>, Vec<u8>) {
    let actors = rng.pick(&[1, 2, 3, 5, 8, 8]);
    let counts = (0..actors).map(|_| match rng.once_in(4) {
        true => MOST_ACTIONS,
        false => rng.between(1, MOST_ACTIONS),
    });
    let shape = Shape {
        counts: counts.collect(),
        mailboxes: 0,
        mutexes: rng.pick(&[1, MOST]),
    };
    let lock = action::lock(any_mutex(rng, &shape));
    let mut scripts = vec![Script::default(); actors];
    for (script, &count) in scripts.iter_mut().zip(&shape.counts) {
        while script.actions().len() < count {
            script.push(lock);
        }
    }
    run_out(rng, shape, scripts, |_| true)
}

/// Eight actors first lock each of eight mutexes, in any order, and then go on around them.
pub fn every_queue(rng: &mut Rng) -> (Vec<u8>, Vec<u8>) {
    let most = usize::from(MOST);
    let shape = Shape {
        mailboxes: 0,
        mutexes: MOST,
        counts: vec![rng.pick(&[most, most + 1, 12, MOST_ACTIONS]); most],
    };
    let mix = Mix::MUTEXES.without(Kind::MutexWait);
    let mut scripts = vec![Script::default(); most];
    for script in &mut scripts {
        let mut left: Vec<u8> = (0..MOST).collect();
        while !left.is_empty() {
            script.push(action::lock(left.swap_remove(rng.below(left.len()))));
        }
        while script.actions().len() < shape.counts[0] {
            script.push(script.draw(rng, &shape, &mix));
        }
    }
    run_out(rng, shape, scripts, |position| position < most)
}

/// Each actor calls routines that lock a mutex, one or two or many times, and unlock it as often, or once more or
/// less; every second with tests of it and waits for it among them.
pub fn nested(rng: &mut Rng) -> (Vec<u8>, Vec<u8>) {
    let actors = rng.pick(&[1, 2, 2, 2, 3, 4, 8]);
    let count = rng.pick(&[4, 6, 8, 12, MOST_ACTIONS]);
    let shape = Shape {
        mailboxes: 0,
        mutexes: rng.pick(&[1, 1, 1, 2]),
        counts: vec![count; actors],
    };
    let mut scripts = vec![Script::default(); actors];
    for script in &mut scripts {
        let looks = rng.once_in(2);
        let mut actions = Vec::new();
        while actions.len() < count {
            let mutex = any_mutex(rng, &shape);
            routine(rng, &mut actions, mutex, count / 2, looks);
        }
        for &action in &actions[..count] {
            script.push(action);
        }
    }
    run_out(rng, shape, scripts, |_| true)
}

/// Adds a routine around a mutex, with up to `most` Locks.
fn routine(rng: &mut Rng, actions: &mut Vec<Action>, mutex: u8, most: usize, looks: bool) {
    let locks = rng.pick(&[1, 2, 2, 3, most, most]);
    let unlocks = rng.pick(&[locks - 1, locks, locks, locks, locks + 1]);
    for _ in 0..locks {
        actions.push(action::lock(mutex));
        match rng.below(4) {
            0 if looks => actions.push(action::mutex_test(0, &[mutex])),
            1 if looks => actions.push(action::mutex_wait(1, &[mutex])),
            _ => {}
        }
    }
    for _ in 0..unlocks {
        actions.push(action::unlock(mutex));
        if looks && rng.once_in(2) {
            actions.push(action::mutex_test(2, &[mutex]));
        }
    }
}

fn any_mutex(rng: &mut Rng, shape: &Shape) -> u8 {
    rng.below(usize::from(shape.mutexes)) as u8
}
