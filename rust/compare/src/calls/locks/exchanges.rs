//! Two schedules of the same steps, with Locks and Unlocks of one mutex among those that they run in opposite
//! orders: what must have been met.

use super::{Deed, has_locks};
use crate::calls::orders::{names, opposed, same_steps};
use crate::harness::demands::Demands;
use crate::harness::tally::Tally;
use reference::pair::dependent;
use reference::{Action, Name, REPORT_ROOM, Table, check, run};
use std::collections::BTreeSet;

/// The longest schedules that are looked at.
const LONGEST: usize = 40;

const LOCKS_ALONE: &str = "different by second Locks alone, with one end";
const LOOK_ALONE: &str = "different by an Unlock kept and a look, one end";

/// What must have been met, and how often: schedules that are the same and have a Lock and an Unlock of one mutex,
/// two Unlocks of it, or a Lock and a test or wait in opposite orders, whatever each does; and such as are different
/// by one dependent pair alone, which leaves the same state in either order.
pub fn demands(demands: Demands, least: u64) -> Demands {
    let locks = [Deed::Joins, Deed::Deepens].map(Some);
    let unlocks = [Deed::Keeps, Deed::Leaves, Deed::Misses].map(Some);
    let mut pairs = Vec::new();
    for lock in locks {
        for other in unlocks.into_iter().chain([None]) {
            pairs.extend([same(lock, other), same(other, lock)]);
        }
    }
    for one in unlocks {
        pairs.extend(unlocks.map(|other| same(one, other)));
    }
    demands
        .notes(&pairs, least)
        .notes(&[LOCKS_ALONE, LOOK_ALONE], least)
}

/// In words: what the earlier step does, and the later one; none is a test or a wait.
fn same(one: Option<Deed>, other: Option<Deed>) -> String {
    let word = |deed| match deed {
        Some(Deed::Joins) => "joining",
        Some(Deed::Deepens) => "second Lock",
        Some(Deed::Keeps) => "Unlock kept",
        Some(Deed::Leaves) => "leaving",
        Some(Deed::Misses) => "Unlock absent",
        None => "look",
    };
    format!("same, {} before {} or not", word(one), word(other))
}

/// Notes what two accepted schedules, which are the same or not, run in opposite orders.
pub fn note(tally: &mut Tally, [bytes, first, second]: [&[u8]; 3], are_same: bool) {
    let table = check(bytes).expect("the table is accepted");
    if first.len() > LONGEST || !has_locks(&table) {
        return;
    }
    let steps = [first, second].map(|schedule| names(&table, schedule));
    if !same_steps(&steps[0], &steps[1]) {
        return;
    }
    let deeds = deeds(&table, &steps[0]);
    let around_one = |(one, other): (Name, Name)| {
        let both = [one, other].map(|name| deeds[name.index()]);
        let looks = |name: Name, mutex| looks(&table.action(name.actor(), name.action()), mutex);
        match both {
            [Some((one, here)), Some((other, there))] if here == there => {
                Some((Some(one), Some(other)))
            }
            [Some((deed, mutex)), None] if looks(other, mutex) => Some((Some(deed), None)),
            [None, Some((deed, mutex))] if looks(one, mutex) => Some((None, Some(deed))),
            _ => None,
        }
    };
    let pairs = opposed(&steps[0], &steps[1]);
    if are_same {
        let met: BTreeSet<_> = pairs.filter_map(around_one).collect();
        for (one, other) in met {
            tally.note(&same(one, other));
        }
        return;
    }
    let mut pairs = pairs.filter(|&(one, other)| dependent(&table, one, other));
    let (Some(pair), None) = (pairs.next(), pairs.next()) else {
        return;
    };
    let alone = match around_one(pair) {
        Some((Some(Deed::Deepens), Some(Deed::Deepens))) => LOCKS_ALONE,
        Some((Some(Deed::Keeps), None) | (None, Some(Deed::Keeps))) => LOOK_ALONE,
        _ => return,
    };
    let end = |schedule| {
        let mut buffer = [0; REPORT_ROOM];
        (run(bytes, schedule, &mut buffer), buffer)
    };
    if end(first) == end(second) {
        tally.note(alone);
    }
}

/// By name what each Lock and Unlock of a schedule does, and to which mutex. An actor's depth depends on its own
/// steps alone.
fn deeds(table: &Table, steps: &[Name]) -> [Option<(Deed, u8)>; Name::COUNT] {
    let mut depths = [[0; 8]; 8];
    let mut deeds = [None; Name::COUNT];
    for name in steps {
        let own: &mut [u8; 8] = &mut depths[name.actor()];
        let action = table.action(name.actor(), name.action());
        let deed = Deed::of(&action, |mutex| own[usize::from(mutex)]);
        if let Some((deed, mutex)) = deed {
            let depth = &mut own[usize::from(mutex)];
            match deed {
                Deed::Joins | Deed::Deepens => *depth += 1,
                Deed::Keeps | Deed::Leaves => *depth -= 1,
                Deed::Misses => {}
            }
        }
        deeds[name.index()] = deed;
    }
    deeds
}

/// Whether an action is a test or a wait that lists a mutex.
fn looks(action: &Action, mutex: u8) -> bool {
    match action {
        Action::MutexTest { mutexes, .. } | Action::MutexWait { mutexes, .. } => {
            mutexes.numbers().contains(&mutex)
        }
        _ => false,
    }
}
