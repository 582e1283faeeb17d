//! Replaying a route.

use crate::follow::Schedule;
use crate::table::Table;
use crate::trace::Trace;

/// Where a route goes wrong: the index of its first entry that is no exchange of an accepted
/// schedule, or 0 where the schedule itself is not accepted.
#[derive(Clone, Copy, PartialEq, Eq, Debug)]
pub struct NoExchange {
    /// The entry's index.
    pub index: usize,
}

/// The schedule that a route leads to. Each entry k must exchange entries k and k + 1, which must
/// be independent steps.
pub fn replay(table: &Table, schedule: &[u8], route: &[u16]) -> Result<Vec<u8>, NoExchange> {
    let trace = Trace::of(table, Schedule::First, schedule);
    let mut trace = trace.map_err(|_| NoExchange { index: 0 })?;
    for (index, &k) in route.iter().enumerate() {
        if !trace.exchange(usize::from(k)) {
            return Err(NoExchange { index });
        }
    }
    Ok(trace.schedule())
}

/// The same, stepping every schedule on the way from a fresh site: each must be accepted.
pub fn replay_stepping(
    table: &Table,
    schedule: &[u8],
    route: &[u16],
) -> Result<Vec<u8>, NoExchange> {
    let mut schedule = schedule.to_vec();
    for (index, &k) in route.iter().enumerate() {
        schedule = replay(table, &schedule, &[k]).map_err(|_| NoExchange { index })?;
    }
    let last = NoExchange { index: route.len() };
    let accepted = Trace::of(table, Schedule::First, &schedule);
    accepted.map_err(|_| last).map(|trace| trace.schedule())
}
