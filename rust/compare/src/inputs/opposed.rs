//! Two schedules of the same steps, made so that a given pair of entries of the first is the first dependent
//! one that the second runs in the opposite order. Every actor has one action more, a Set that neither runs.

use crate::inputs::rng::Rng;
use crate::inputs::twins::Twins;
use tables::action::{lock, note, receive, send, set};
use tables::{Action, Layout};

/// Actions two of which are dependent, whoever runs them, and which are always ready.
const BOUND: [fn() -> Action; 4] = [|| send(0, 0), || receive(0, 0), || lock(0), || note(0)];

/// The steps of entries `i` and `j` of a schedule, of two actors, are dependent and no others of two actors
/// are. The second schedule runs all of the later one's actor first, and all of the earlier one's last.
pub fn alone(rng: &mut Rng, first: &[u8], i: usize, j: usize) -> Twins {
    let bound = rng.pick(&BOUND)();
    let mut layout = layout(first, |entry| match entry == i || entry == j {
        true => bound,
        false => set(1, 9),
    });
    for script in &mut layout.scripts {
        script.truncate(tables::layout::MOST_ACTIONS);
    }
    let mut second = first.to_vec();
    second.sort_by_key(|&actor| match actor {
        _ if actor == first[j] => 0,
        _ if actor == first[i] => 2,
        _ => 1,
    });
    Twins {
        table: layout.bytes(),
        first: first.to_vec(),
        second,
    }
}

/// All steps are dependent, each of another actor: entry `j` comes right before entry `i` in the second
/// schedule, and the entries after it, which are in opposite orders too, before all.
pub fn among(rng: &mut Rng, first: &[u8], i: usize, j: usize) -> Twins {
    let bound = rng.pick(&BOUND)();
    let table = layout(first, |_| bound).bytes();
    let mut second = first[j + 1..].to_vec();
    second.reverse();
    second.extend(&first[..i]);
    second.push(first[j]);
    second.extend(&first[i..j]);
    Twins {
        table,
        first: first.to_vec(),
        second,
    }
}

/// The table of a schedule's actions, each by its entry, and a Set more for each actor.
fn layout(schedule: &[u8], action: impl Fn(usize) -> Action) -> Layout {
    let actors = schedule
        .iter()
        .max()
        .map_or(1, |&last| usize::from(last) + 1);
    let mut scripts = vec![Vec::new(); actors];
    for (entry, &actor) in schedule.iter().enumerate() {
        scripts[usize::from(actor)].push(action(entry));
    }
    for script in &mut scripts {
        script.push(set(2, 9));
    }
    Layout {
        mailboxes: 1,
        mutexes: 1,
        scripts,
    }
}

/// So many entries, each of another actor.
pub fn once_each(rng: &mut Rng, entries: usize) -> Vec<u8> {
    let mut schedule: Vec<u8> = (0..entries as u8).collect();
    shuffle(rng, &mut schedule);
    schedule
}

/// The entries of actors that have so many each, those of entries `i` and `j` not the same.
pub fn apart(rng: &mut Rng, counts: &[usize], i: usize, j: usize) -> Vec<u8> {
    let actors = (0..).zip(counts);
    let entries = actors.flat_map(|(actor, &count)| vec![actor; count]);
    let mut schedule: Vec<u8> = entries.collect();
    loop {
        shuffle(rng, &mut schedule);
        if schedule[i] != schedule[j] {
            return schedule;
        }
    }
}

fn shuffle(rng: &mut Rng, entries: &mut [u8]) {
    for last in (1..entries.len()).rev() {
        entries.swap(last, rng.below(last + 1));
    }
}
