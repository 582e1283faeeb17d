//! Tables of every family, without a schedule: inputs for the calls that make one.

use crate::inputs::contended::{self, Size};
use crate::inputs::deep::{one_mailbox, one_mutex};
use crate::inputs::digits;
use crate::inputs::entries::{Fault, Place};
use crate::inputs::families::{FAMILIES, Family};
use crate::inputs::locks;
use crate::inputs::mix::Mix;
use crate::inputs::notes;
use crate::inputs::rng::Rng;
use crate::inputs::sample::{Sample, Shape};
use crate::inputs::steps::suited;
use crate::inputs::totals;

/// The families, each as often as it shall have its turn.
pub const SITES: [Family; 21] = [
    contended,
    contended,
    contended,
    contended,
    contended,
    contended,
    waiting,
    over,
    open,
    idle,
    deep_mailbox,
    deep_mutex,
    locks_alone,
    every_queue,
    nested_locks,
    all_notes,
    notes_of_one,
    of_digits,
    damaged,
    damaged,
    damaged,
];

/// A table of any family.
pub fn any(rng: &mut Rng) -> Vec<u8> {
    let family = rng.pick(&SITES);
    family(rng)
}

/// Mailboxes and mutexes are contended, in tables of every size.
fn contended(rng: &mut Rng) -> Vec<u8> {
    let size = Size::any(rng);
    contended::table(rng, size).0.bytes
}

/// Mostly waits.
fn waiting(rng: &mut Rng) -> Vec<u8> {
    suited(rng, Fault::NotReady, Place::Middle).0.bytes
}

/// Totals that come to the most that a cell holds, or pass it.
fn over(rng: &mut Rng) -> Vec<u8> {
    let shape = Shape::any(rng);
    totals::table(rng, shape).bytes
}

/// Nothing that waits, mostly with all that a table can hold: it runs to its end.
fn open(rng: &mut Rng) -> Vec<u8> {
    let shape = match rng.once_in(3) {
        true => Shape::any(rng),
        false => Shape::maximal(),
    };
    Sample::mixed(rng, shape, &Mix::QUEUES).bytes
}

/// Actors with nothing to do, and some that have one action.
fn idle(rng: &mut Rng) -> Vec<u8> {
    let most = rng.below(2);
    let actors = rng.between(1, 8);
    let shape = Shape {
        mailboxes: 1,
        mutexes: 1,
        counts: (0..actors).map(|_| rng.between(0, most)).collect(),
    };
    Sample::mixed(rng, shape, &Mix::MUTEXES).bytes
}

/// All goes to one side of a mailbox.
fn deep_mailbox(rng: &mut Rng) -> Vec<u8> {
    one_mailbox(rng).0
}

/// All are queued for one mutex.
fn deep_mutex(rng: &mut Rng) -> Vec<u8> {
    one_mutex(rng).0
}

/// Every action is a Lock of one mutex.
fn locks_alone(rng: &mut Rng) -> Vec<u8> {
    locks::alone(rng).0
}

/// All are queued for every mutex.
fn every_queue(rng: &mut Rng) -> Vec<u8> {
    locks::every_queue(rng).0
}

/// Routines that lock again.
fn nested_locks(rng: &mut Rng) -> Vec<u8> {
    locks::nested(rng).0
}

/// Every action is a Note.
fn all_notes(rng: &mut Rng) -> Vec<u8> {
    notes::every_action(rng).0
}

/// One actor alone has Notes.
fn notes_of_one(rng: &mut Rng) -> Vec<u8> {
    notes::one_actor(rng).0
}

/// Cells hold numbers of every length.
fn of_digits(rng: &mut Rng) -> Vec<u8> {
    digits::steps(rng).table
}

/// Mostly refused.
fn damaged(rng: &mut Rng) -> Vec<u8> {
    let family = rng.pick(&FAMILIES);
    family(rng)
}
