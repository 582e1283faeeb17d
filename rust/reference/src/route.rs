//! The exchange route: a chain that turns one schedule into another, as positions.

use crate::name::Name;
use crate::reader::check;
use crate::refusal::{Reason, Refusal};
use crate::same::{same_traces, traces};

/// Writes a route from the first schedule to the second and gives its length: refusals as
/// [`crate::same()`], then 19 where the schedules are different, then 18 where `route` has too
/// few entries. A refusal writes nothing, and entries after the route keep what they hold.
///
/// The route pulls each entry of the second schedule to its place in turn, so that it has one
/// exchange for each pair that the schedules run in opposite orders. No route is shorter.
pub fn route(
    table: &[u8],
    first: &[u8],
    second: &[u8],
    route: &mut [u16],
) -> Result<usize, Refusal> {
    let table = check(table)?;
    let (first, second) = traces(&table, first, second)?;
    if !same_traces(&table, &first, &second) {
        return Err(Refusal::new(Reason::Different, 0));
    }
    if route.len() < room(first.names().len()) {
        return Err(Refusal::new(Reason::RouteRoom, 0));
    }
    Ok(pull(first.names(), second.names(), route))
}

/// The number of entries that a route of schedules of length `m` has at most.
pub const fn room(m: usize) -> usize {
    m * m.saturating_sub(1) / 2
}

/// Pulls each name of `second` to its place in `first`.
pub(crate) fn pull(first: &[Name], second: &[Name], route: &mut [u16]) -> usize {
    let mut names = [Name::default(); Name::COUNT];
    let names = &mut names[..first.len()];
    names.copy_from_slice(first);
    let mut length = 0;
    for (place, &name) in second.iter().enumerate() {
        let rest = &mut names[place..];
        let way = rest.iter().position(|&other| other == name);
        let way = way.expect("the schedules have the same names");
        rest.copy_within(..way, 1);
        let exchanges = &mut route[length..length + way];
        for (back, entry) in exchanges.iter_mut().enumerate() {
            *entry = (place + way - 1 - back) as u16;
        }
        length += way;
    }
    length
}
