//! A second decision of the same verdict, straight from its definition: a search through all
//! chains, breadth first. For small schedules only: their number grows fast.

use crate::follow::Schedule;
use crate::table::Table;
use crate::trace::Trace;
use std::collections::{HashSet, VecDeque};

/// Whether a chain of exchanges turns the accepted schedule `first` into `second`.
pub fn chain_exists(table: &Table, first: &[u8], second: &[u8]) -> bool {
    let mut reached = HashSet::from([first.to_vec()]);
    let mut queue = VecDeque::from([first.to_vec()]);
    while let Some(schedule) = queue.pop_front() {
        if schedule == second {
            return true;
        }
        for next in exchanges(table, &schedule) {
            if reached.insert(next.clone()) {
                queue.push_back(next);
            }
        }
    }
    false
}

/// What the exchanges of a schedule make of it; none where it is not accepted.
fn exchanges(table: &Table, schedule: &[u8]) -> Vec<Vec<u8>> {
    let Ok(trace) = Trace::of(table, Schedule::First, schedule) else {
        return Vec::new();
    };
    let independent = (0..schedule.len()).filter(|&k| trace.independent(k));
    let exchanged = independent.map(|k| {
        let mut next = schedule.to_vec();
        next.swap(k, k + 1);
        next
    });
    exchanged.collect()
}
