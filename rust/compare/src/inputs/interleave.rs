//! From one accepted schedule to another with the same step names.

use crate::inputs::rng::Rng;
use crate::inputs::walk::Walk;
use reference::pair::dependent;
use reference::trace::Trace;
use reference::{Name, Schedule, Table};

/// A same schedule, by random exchanges.
pub fn exchanged(rng: &mut Rng, table: &Table, schedule: &[u8]) -> Vec<u8> {
    let mut trace = trace(table, schedule);
    match rng.below(4) {
        0 => few_exchanges(rng, &mut trace),
        1 => by_rank(rng, &mut trace),
        _ => many_exchanges(rng, &mut trace),
    }
    trace.schedule()
}

/// The same schedule with lower actors' steps as far forward as exchanges can bring them.
pub fn by_actor(table: &Table, schedule: &[u8]) -> Vec<u8> {
    let mut trace = trace(table, schedule);
    by_ranks(&mut trace, [0, 1, 2, 3, 4, 5, 6, 7]);
    trace.schedule()
}

/// A schedule in which two dependent neighbours of different actors changed places, and others
/// were exchanged before and after: different, but hardly. None where no such change is accepted.
pub fn twisted(rng: &mut Rng, table: &Table, schedule: &[u8]) -> Option<Vec<u8>> {
    let way = exchanged(rng, table, schedule);
    let first = trace(table, &way);
    let mut open: Vec<usize> = (0..way.len().saturating_sub(1))
        .filter(|&k| way[k] != way[k + 1] && !first.independent(k))
        .collect();
    while !open.is_empty() {
        let k = open.swap_remove(rng.below(open.len()));
        if let Some(twisted) = opposed_at(table, first.names(), k, k + 1) {
            return Some(exchanged(rng, table, &twisted));
        }
    }
    None
}

/// A schedule that differs from that of these steps by the order of steps `i` and `j` alone, which are
/// dependent and of different actors. None where a step between them keeps them apart, or the change is not
/// accepted.
pub fn opposed_at(table: &Table, names: &[Name], i: usize, j: usize) -> Option<Vec<u8>> {
    if names[i].actor() == names[j].actor() || !dependent(table, names[i], names[j]) {
        return None;
    }
    let (mut before, mut after) = (Vec::new(), vec![names[i]]);
    for &between in &names[i + 1..j] {
        match after.iter().any(|&step| dependent(table, step, between)) {
            true => after.push(between),
            false => before.push(between),
        }
    }
    if after[1..]
        .iter()
        .any(|&step| dependent(table, step, names[j]))
    {
        return None;
    }
    let parts = [&names[..i], &before, &names[j..=j], &after, &names[j + 1..]];
    let actors = parts.concat().into_iter().map(|name| name.actor() as u8);
    let schedule: Vec<u8> = actors.collect();
    Trace::of(table, Schedule::First, &schedule).ok()?;
    Some(schedule)
}

/// Another interleaving of the same steps, same or different. None where the random one gets stuck.
pub fn interleaved(rng: &mut Rng, table: &Table, schedule: &[u8]) -> Option<Vec<u8>> {
    let mut left = [0; 8];
    for &actor in schedule {
        left[usize::from(actor)] += 1;
    }
    let mut walk = Walk::new(table);
    while walk.entries.len() < schedule.len() {
        let next = walk.entries.len() + 1;
        walk.wander(rng, next, |actor| left[actor] > 0);
        let actor = *walk.entries.get(next - 1)?;
        left[usize::from(actor)] -= 1;
    }
    Some(walk.entries)
}

fn trace<'a>(table: &'a Table, schedule: &[u8]) -> Trace<'a> {
    Trace::of(table, Schedule::First, schedule).expect("the schedule is accepted")
}

/// One to eight exchanges.
fn few_exchanges(rng: &mut Rng, trace: &mut Trace) {
    for _ in 0..rng.between(1, 8) {
        trace.exchange(rng.below(trace.names().len().max(1)));
    }
}

/// Many exchanges, everywhere.
fn many_exchanges(rng: &mut Rng, trace: &mut Trace) {
    for _ in 0..rng.between(1, 24) {
        for k in 0..trace.names().len() {
            if rng.once_in(2) {
                trace.exchange(k);
            }
        }
    }
}

/// Brings some actors' steps as far forward as exchanges can.
fn by_rank(rng: &mut Rng, trace: &mut Trace) {
    by_ranks(trace, std::array::from_fn(|_| rng.byte()));
}

/// Exchanges neighbours as long as the first has the higher rank, by its actor.
fn by_ranks(trace: &mut Trace, ranks: [u8; 8]) {
    for _ in 0..trace.names().len() {
        let mut still = true;
        for k in 1..trace.names().len() {
            let rank = |k: usize| ranks[trace.names()[k].actor()];
            if rank(k - 1) > rank(k) && trace.exchange(k - 1) {
                still = false;
            }
        }
        if still {
            return;
        }
    }
}
