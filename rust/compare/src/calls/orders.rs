//! Two schedules of the same steps: which steps they run in opposite orders.

use reference::trace::Trace;
use reference::{Name, Schedule, Table};
use tables::Kind;

/// The steps of an accepted schedule.
pub fn names(table: &Table, schedule: &[u8]) -> Vec<Name> {
    let trace = Trace::of(table, Schedule::First, schedule);
    trace.expect("the schedule is accepted").names().to_vec()
}

/// Whether two schedules run the same steps. None comes twice in one.
pub fn same_steps(first: &[Name], second: &[Name]) -> bool {
    let places = places(second);
    first.len() == second.len() && first.iter().all(|name| places[name.index()].is_some())
}

/// The pairs that two schedules of the same steps run in opposite orders, each with the earlier of the first
/// schedule first: by rising later one, then by rising earlier one.
pub fn opposed(first: &[Name], second: &[Name]) -> impl Iterator<Item = (Name, Name)> {
    let places = places(second);
    let place = move |name: Name| places[name.index()];
    let later = first.iter().enumerate();
    later.flat_map(move |(later, &other)| {
        let earlier = first[..later].iter().copied();
        let opposed = earlier.filter(move |&one| place(one) > place(other));
        opposed.map(move |one| (one, other))
    })
}

/// Where each step stands in a schedule, by name.
fn places(schedule: &[Name]) -> [Option<usize>; Name::COUNT] {
    let mut places = [None; Name::COUNT];
    for (place, name) in schedule.iter().enumerate() {
        places[name.index()] = Some(place);
    }
    places
}

/// The kinds of two steps.
pub fn kinds(table: &Table, (one, other): (Name, Name)) -> (Kind, Kind) {
    let kind = |name: Name| table.kind(name.actor(), name.action());
    (kind(one), kind(other))
}
