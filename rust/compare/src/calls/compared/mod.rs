//! How many pairs of entries the same verdict compared, for the calls that give it: inputs that come before
//! the random ones, what the number tells, and what must have been met.

pub mod corners;
pub mod told;

use crate::calls::totals;
use crate::harness::call::Each;
use crate::harness::slots::Input;
use crate::inputs::opposed::{alone, among, apart, once_each};
use crate::inputs::rng::Rng;
use crate::inputs::twins::Twins;
use std::ops::ControlFlow;
use tables::layout::{MOST, MOST_ACTIONS};

/// The entries of the longest schedules, and those of each actor in them.
const LONGEST: usize = 256;
const COUNTS: [usize; MOST as usize] = [MOST_ACTIONS; MOST as usize];

/// The pairs of entries that end the search in some of the longest: the first, the last, and the two ends.
const ENDS: [(usize, usize); 4] = [(0, 1), (1, 2), (LONGEST - 2, LONGEST - 1), (0, LONGEST - 1)];

/// Goes through totals; then through short schedules that differ first at each pair of entries, and long
/// ones that do so at the ends.
pub fn sweep(rng: &mut Rng, each: &mut Each<'_>) -> ControlFlow<()> {
    totals::sweep_two(rng, each)?;
    for entries in 2..=usize::from(MOST) {
        for (i, j) in pairs(entries) {
            let few = entries.div_ceil(2);
            let first = apart(rng, &[few, entries - few], i, j);
            around(alone(rng, &first, i, j), each)?;
            let first = once_each(rng, entries);
            around(alone(rng, &first, i, j), each)?;
            around(among(rng, &first, i, j), each)?;
        }
    }
    for (i, j) in ENDS {
        for _ in 0..8 {
            let first = apart(rng, &COUNTS, i, j);
            long(alone(rng, &first, i, j), each)?;
        }
    }
    ControlFlow::Continue(())
}

/// All pairs i < j of so many entries.
fn pairs(entries: usize) -> impl Iterator<Item = (usize, usize)> {
    (0..entries).flat_map(|j| (0..j).map(move |i| (i, j)))
}

/// Two schedules either way round; one and itself, and its beginnings; both with a step more that the other
/// has not, and one of them alone.
fn around(twins: Twins, each: &mut Each<'_>) -> ControlFlow<()> {
    let Twins {
        table,
        first,
        second,
    } = twins;
    let (more, other) = (
        longer(&first, first[0]),
        longer(&second, first[first.len() - 1]),
    );
    for (one, another) in [
        (&first[..], &second[..]),
        (&second, &first),
        (&first, &first),
        (&first, &first[1..]),
        (&first, &first[..first.len() - 1]),
        (&first[..1], &first[..1]),
        (&more, &other),
        (&more, &second),
        (&first, &other),
    ] {
        each(&input(&table, one, another))?;
    }
    ControlFlow::Continue(())
}

/// Two of the longest schedules either way round; one and the other's beginning; one and itself, in another
/// order too.
fn long(twins: Twins, each: &mut Each<'_>) -> ControlFlow<()> {
    let Twins {
        table,
        first,
        second,
    } = twins;
    let mut by_actor = first.clone();
    by_actor.sort_unstable();
    for (one, another) in [
        (&first[..], &second[..]),
        (&second, &first),
        (&first, &second[..LONGEST - 1]),
        (&first, &first),
        (&first, &by_actor),
    ] {
        each(&input(&table, one, another))?;
    }
    ControlFlow::Continue(())
}

fn longer(schedule: &[u8], actor: u8) -> Vec<u8> {
    [schedule, &[actor]].concat()
}

fn input(table: &[u8], first: &[u8], second: &[u8]) -> Input {
    Input {
        read: [table, first, second].map(<[u8]>::to_vec),
        ..Input::default()
    }
}
