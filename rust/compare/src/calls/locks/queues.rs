//! What queues must have held, and which Locks, Unlocks, tests and waits must have been run on them.

use super::{Deed, has_locks};
use crate::harness::demands::Demands;
use crate::harness::tally::Tally;
use reference::mutex::Queued;
use reference::{Action, Next, Site, Status, Table, check};
use std::collections::BTreeSet;
use tables::layout::{MOST, MOST_ACTIONS};

const FREE: &str = "Lock of a free mutex";
const BEHIND: &str = "Lock behind others";
const BEHIND_AGAIN: &str = "Lock behind others after leaving";
const OWNER_ALONE: &str = "second Lock, owner alone";
const OWNER_FOLLOWED: &str = "second Lock, owner and others waiting";
const LAST: &str = "second Lock, waiting, the last";
const FOLLOWED: &str = "second Lock, waiting, others behind";
const AT_2_ALONE: &str = "Unlock at depth 2, owner alone";
const AT_2_OWNER: &str = "Unlock at depth 2, owner and others waiting";
const AT_2_LAST: &str = "Unlock at depth 2, waiting, the last";
const AT_2_FOLLOWED: &str = "Unlock at depth 2, waiting, others behind";
const DEEPER_OWNER: &str = "Unlock at depth 3 or more, owner";
const DEEPER_WAITING: &str = "Unlock at depth 3 or more, waiting";
const LEAVES_FREE: &str = "Unlock at depth 1, owner alone";
const LEAVES_OWNER: &str = "Unlock at depth 1, owner, the next deeper";
const LEAVES_LAST: &str = "Unlock at depth 1, waiting, the last";
const LEAVES_FOLLOWED: &str = "Unlock at depth 1, waiting, the next deeper";
const LEAVES_16: &str = "Unlock at depth 1 after a depth of 16";
const MISSES_FREE: &str = "Unlock of a free mutex";
const MISSES: &str = "Unlock of one absent, others queued";
const MISSES_AGAIN: &str = "Unlock of one that has left";
const TEST_BETWEEN: &str = "MutexTest of the owner between Unlocks";
const WAIT_BETWEEN: &str = "MutexWait of the owner between Unlocks";
const OTHERS_TEST: &str = "MutexTest of a waiting one between Unlocks";
const OTHERS_WAIT: &str = "MutexWait not ready between Unlocks";
const TEST_AFTER: &str = "MutexTest of the next after the last Unlock";
const WAIT_AFTER: &str = "MutexWait of the next after the last Unlock";
const MIXED: &str = "a queue of 8 with mixed depths";
const EIGHT_DEPTHS: &str = "a queue of 8 with 8 depths";
const EIGHT_QUEUES: &str = "8 queues of 8";

/// All of them.
const CORNERS: [&str; 30] = [
    FREE,
    BEHIND,
    BEHIND_AGAIN,
    OWNER_ALONE,
    OWNER_FOLLOWED,
    LAST,
    FOLLOWED,
    AT_2_ALONE,
    AT_2_OWNER,
    AT_2_LAST,
    AT_2_FOLLOWED,
    DEEPER_OWNER,
    DEEPER_WAITING,
    LEAVES_FREE,
    LEAVES_OWNER,
    LEAVES_LAST,
    LEAVES_FOLLOWED,
    LEAVES_16,
    MISSES_FREE,
    MISSES,
    MISSES_AGAIN,
    TEST_BETWEEN,
    WAIT_BETWEEN,
    OTHERS_TEST,
    OTHERS_WAIT,
    TEST_AFTER,
    WAIT_AFTER,
    MIXED,
    EIGHT_DEPTHS,
    EIGHT_QUEUES,
];

/// An end with this depth in a queue.
fn depth(depth: usize) -> String {
    format!("depth {depth} at the end")
}

/// An end with this actor as deep as can be.
fn deepest(actor: u8) -> String {
    format!("actor {actor} with depth {MOST_ACTIONS} at the end")
}

/// What a call must have met, and how often.
pub fn demands(demands: Demands, least: u64) -> Demands {
    let depths: Vec<String> = (1..=MOST_ACTIONS).map(depth).collect();
    let deepest: Vec<String> = (0..MOST).map(deepest).collect();
    demands
        .notes(&CORNERS, least)
        .notes(&depths, least)
        .notes(&deepest, least)
}

/// Notes what an accepted schedule of an accepted table met, each once.
pub fn note(tally: &mut Tally, table: &[u8], schedule: &[u8]) {
    let table = check(table).expect("the table is accepted");
    if !has_locks(&table) {
        return;
    }
    let mut walk = Walk::default();
    let site = walk.along(&table, schedule);
    let queues: Vec<Vec<Queued>> = (0..table.mutexes())
        .map(|mutex| queue(&site, mutex))
        .collect();
    walk.end(&table, &site, &queues);
    for corner in walk.met {
        tally.note(corner);
    }
    let depths: BTreeSet<u8> = queues.iter().flatten().map(|queued| queued.depth).collect();
    for found in depths {
        tally.note(&depth(found.into()));
    }
    let ends = queues.iter().flatten();
    for queued in ends.filter(|queued| usize::from(queued.depth) == MOST_ACTIONS) {
        tally.note(&deepest(queued.actor));
    }
}

fn queue(site: &Site, mutex: usize) -> Vec<Queued> {
    site.mutex(mutex).collect()
}

/// What became of an actor at a mutex.
#[derive(Clone, Copy, Default)]
struct Past {
    /// It has left the queue before.
    left: bool,
    /// Its last Lock or Unlock was an Unlock with which it did not leave.
    between: bool,
    /// Its greatest depth since it joined.
    deepest: u8,
}

impl Past {
    /// What it becomes by a Lock or an Unlock at this depth.
    fn moves(&mut self, deed: Deed, depth: u8) {
        match deed {
            Deed::Joins | Deed::Deepens => {
                self.between = false;
                self.deepest = self.deepest.max(depth + 1);
            }
            Deed::Keeps => self.between = true,
            Deed::Leaves => {
                *self = Self {
                    left: true,
                    ..Self::default()
                }
            }
            Deed::Misses => {}
        }
    }
}

/// The corner that a Lock or an Unlock of an actor in the queue is, by who is right behind it.
fn of_queued(
    deed: Deed,
    depth: u8,
    is_owner: bool,
    behind: Option<&Queued>,
) -> Option<&'static str> {
    let deeper = behind.is_some_and(|next| next.depth > 1);
    let corner = match (deed, is_owner, behind.is_some()) {
        (Deed::Deepens, true, false) => OWNER_ALONE,
        (Deed::Deepens, true, true) => OWNER_FOLLOWED,
        (Deed::Deepens, false, false) => LAST,
        (Deed::Deepens, false, true) => FOLLOWED,
        (Deed::Keeps, true, _) if depth > 2 => DEEPER_OWNER,
        (Deed::Keeps, false, _) if depth > 2 => DEEPER_WAITING,
        (Deed::Keeps, true, false) => AT_2_ALONE,
        (Deed::Keeps, true, true) => AT_2_OWNER,
        (Deed::Keeps, false, false) => AT_2_LAST,
        (Deed::Keeps, false, true) => AT_2_FOLLOWED,
        (Deed::Leaves, true, false) => LEAVES_FREE,
        (Deed::Leaves, true, true) if deeper => LEAVES_OWNER,
        (Deed::Leaves, false, false) => LEAVES_LAST,
        (Deed::Leaves, false, true) if deeper => LEAVES_FOLLOWED,
        _ => return None,
    };
    Some(corner)
}

/// A schedule being stepped, and what it met.
#[derive(Default)]
struct Walk {
    met: BTreeSet<&'static str>,
    /// By mutex and actor.
    pasts: [[Past; 8]; 8],
    /// By mutex: who came to own it when one left that had been deeper than 1.
    next: [Option<u8>; 8],
}

impl Walk {
    /// Steps along an accepted schedule and looks at each step; the site it leads to.
    fn along(&mut self, table: &Table, schedule: &[u8]) -> Site {
        let mut site = Site::fresh();
        for &entry in schedule {
            let actor = usize::from(entry);
            let step = table.action(actor, site.actor(actor).position);
            if let Action::Lock { mutex } | Action::Unlock { mutex } = step {
                let mutex = usize::from(mutex);
                self.moves(&queue(&site, mutex), mutex, entry, &step);
            }
            let next = site.step(actor, &step);
            self.looks(&site, entry, &step, next);
        }
        site
    }

    /// Looks at a Lock or an Unlock of a mutex with this queue.
    fn moves(&mut self, queue: &[Queued], mutex: usize, actor: u8, step: &Action) {
        let place = queue.iter().position(|queued| queued.actor == actor);
        let depth = place.map_or(0, |place| queue[place].depth);
        let Some((deed, _)) = Deed::of(step, |_| depth) else {
            return;
        };
        let is_owner = place == Some(0);
        let behind = place.and_then(|place| queue.get(place + 1));
        let past = &mut self.pasts[mutex][usize::from(actor)];
        if deed == Deed::Leaves && is_owner {
            let next = behind.filter(|_| past.deepest > 1);
            self.next[mutex] = next.map(|next| next.actor);
        }
        let others = !queue.is_empty();
        let after = match deed {
            Deed::Joins => (past.left && others).then_some(BEHIND_AGAIN),
            Deed::Leaves => (past.deepest >= 16).then_some(LEAVES_16),
            Deed::Misses => past.left.then_some(MISSES_AGAIN),
            Deed::Deepens | Deed::Keeps => None,
        };
        let here = match deed {
            Deed::Joins => Some(if others { BEHIND } else { FREE }),
            Deed::Misses => Some(if others { MISSES } else { MISSES_FREE }),
            _ => of_queued(deed, depth, is_owner, behind),
        };
        past.moves(deed, depth);
        self.met.extend([after, here].into_iter().flatten());
    }

    /// Looks at a test or a wait that was run.
    fn looks(&mut self, site: &Site, actor: u8, step: &Action, next: Next) {
        let (mutexes, between, after) = match step {
            Action::MutexTest { mutexes, .. } => (mutexes.numbers(), TEST_BETWEEN, TEST_AFTER),
            Action::MutexWait { mutexes, .. } => (mutexes.numbers(), WAIT_BETWEEN, WAIT_AFTER),
            _ => return,
        };
        let Next::Taken { finds } = next else {
            return;
        };
        let Some(place) = (finds as usize).checked_sub(1) else {
            if self.others_between(site, actor, mutexes) {
                self.met.insert(OTHERS_TEST);
            }
            return;
        };
        let mutex = usize::from(mutexes[place]);
        if self.pasts[mutex][usize::from(actor)].between {
            self.met.insert(between);
        }
        if self.next[mutex] == Some(actor) {
            self.met.insert(after);
        }
    }

    /// Whether an actor is queued for one of these mutexes behind an owner between two Unlocks.
    fn others_between(&self, site: &Site, actor: u8, mutexes: &[u8]) -> bool {
        mutexes.iter().any(|&mutex| {
            let mutex = usize::from(mutex);
            let queue = queue(site, mutex);
            let waits = queue.iter().skip(1).any(|queued| queued.actor == actor);
            waits && self.pasts[mutex][usize::from(queue[0].actor)].between
        })
    }

    /// Looks at the end.
    fn end(&mut self, table: &Table, site: &Site, queues: &[Vec<Queued>]) {
        for actor in 0..table.actors() {
            if Status::in_state(table, site, actor) != Status::Waits {
                continue;
            }
            if let Action::MutexWait { mutexes, .. } =
                table.action(actor, site.actor(actor).position)
                && self.others_between(site, actor as u8, mutexes.numbers())
            {
                self.met.insert(OTHERS_WAIT);
            }
        }
        let most = usize::from(MOST);
        let full = || queues.iter().filter(|queue| queue.len() == most);
        let depths = |queue: &Vec<Queued>| {
            let depths: BTreeSet<u8> = queue.iter().map(|queued| queued.depth).collect();
            depths.len()
        };
        let ends = [
            (MIXED, full().any(|queue| depths(queue) > 1)),
            (EIGHT_DEPTHS, full().any(|queue| depths(queue) == most)),
            (EIGHT_QUEUES, full().count() == most),
        ];
        let met = ends.iter().filter(|(_, met)| *met);
        self.met.extend(met.map(|(corner, _)| corner));
    }
}
