//! The same verdict and the route made for speed. A step of the first schedule is crossed where an earlier
//! one that it depends on comes later in the second: that is seen by the latest place so far of each mark
//! that the step meets. Pairs are compared for the first crossed step alone.

use super::steps::{First, Second};
use crate::footprint::Footprint;
use crate::reader::check;
use crate::refusal::{Reason, Refusal};
use crate::route::{pull, room};
use crate::same::Same;

/// As [`crate::same()`].
pub fn same(table: &[u8], first: &[u8], second: &[u8]) -> Result<Same, Refusal> {
    let table = check(table)?;
    let first = First::of(&table, first)?;
    let second = Second::of(&table, second)?;
    Ok(verdict(&first, &second))
}

/// As [`crate::prefix()`].
pub fn prefix(table: &[u8], first: &[u8], second: &[u8]) -> Result<Same, Refusal> {
    let length = first.len().min(second.len());
    same(table, &first[..length], &second[..length])
}

/// As [`crate::route()`].
pub fn route(
    table: &[u8],
    first: &[u8],
    second: &[u8],
    route: &mut [u16],
) -> Result<usize, Refusal> {
    let table = check(table)?;
    let first = First::of(&table, first)?;
    let second = Second::of(&table, second)?;
    if !verdict(&first, &second).is_same {
        return Err(Refusal::new(Reason::Different, 0));
    }
    if route.len() < room(first.names().len()) {
        return Err(Refusal::new(Reason::RouteRoom, 0));
    }
    Ok(pull(first.names(), second.names(), route))
}

fn verdict(first: &First, second: &Second) -> Same {
    let different = |pairs: usize| Same {
        is_same: false,
        pairs: pairs as u32,
    };
    let Some(places) = second.places(first) else {
        return different(0);
    };
    let footprints = first.footprints();
    let places = &places[..footprints.len()];
    match crossed(footprints, places) {
        Some((i, j)) => different(room(j) + i + 1),
        None => Same {
            is_same: true,
            pairs: room(footprints.len()) as u32,
        },
    }
}

/// The first dependent pair that the second schedule runs in the opposite order: that of the lowest later
/// step, and of its several the one of the lowest earlier step. It is of two actors: either schedule runs
/// an actor's steps in the order of their numbers.
fn crossed(footprints: &[Footprint], places: &[u16]) -> Option<(usize, usize)> {
    // For each mark one more than the latest place of the steps so far that have it.
    let mut latest = [0; 64];
    for (j, (footprint, &place)) in footprints.iter().zip(places).enumerate() {
        if bits(footprint.meets).any(|mark| latest[mark] > place) {
            let crosses = |&i: &usize| places[i] > place && footprints[i].meets(footprint);
            return (0..j).find(crosses).map(|i| (i, j));
        }
        for mark in bits(footprint.touched()) {
            latest[mark] = latest[mark].max(place + 1);
        }
    }
    None
}

/// The numbers of the bits that are set.
fn bits(mut set: u64) -> impl Iterator<Item = usize> {
    std::iter::from_fn(move || {
        let bit = (set != 0).then(|| set.trailing_zeros() as usize % 64);
        set &= set.wrapping_sub(1);
        bit
    })
}
