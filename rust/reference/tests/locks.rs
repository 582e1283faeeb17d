//! Locks and Unlocks, against document 01 and document 02, request W7.

mod common;

use common::*;
use reference::{Ending, REPORT_ROOM, pair, ready, run, same};
use tables::action::*;
use tables::layout::{MOST, MOST_ACTIONS};
use tables::{Action, Layout};

/// The queue of mutex 0 after a schedule: actors and depths, the owner first.
fn queue(table: &[u8], schedule: &[u8]) -> Vec<(u8, u8)> {
    let queue = after(table, schedule).mutex(0);
    queue.map(|queued| (queued.actor, queued.depth)).collect()
}

/// A table of actors that all have these actions.
fn alike(actors: usize, actions: &[Action]) -> Vec<u8> {
    table(&vec![actions; actors])
}

#[test]
fn a_second_lock_adds_one_and_keeps_the_place() {
    let table = alike(3, &[lock(0); 3]);
    assert_eq!(queue(&table, &[1, 0, 2]), [(1, 1), (0, 1), (2, 1)]);
    // By the owner, by one in the middle, by the last.
    assert_eq!(queue(&table, &[1, 0, 2, 1]), [(1, 2), (0, 1), (2, 1)]);
    assert_eq!(queue(&table, &[1, 0, 2, 0]), [(1, 1), (0, 2), (2, 1)]);
    assert_eq!(queue(&table, &[1, 0, 2, 2, 2]), [(1, 1), (0, 1), (2, 3)]);
}

#[test]
fn an_unlock_takes_one_off_owner_or_not() {
    let own = [lock(0), lock(0), unlock(0), unlock(0), unlock(0), lock(0)];
    let table = alike(3, &own);
    let all = [0, 0, 1, 1, 2, 2];
    let then = |entries: &[u8]| queue(&table, &[&all[..], entries].concat());
    assert_eq!(then(&[]), [(0, 2), (1, 2), (2, 2)]);
    assert_eq!(then(&[0]), [(0, 1), (1, 2), (2, 2)]);
    assert_eq!(then(&[1]), [(0, 2), (1, 1), (2, 2)]);
    assert_eq!(then(&[2]), [(0, 2), (1, 2), (2, 1)]);
    // The second leaves; those behind keep their depths.
    assert_eq!(then(&[0, 0]), [(1, 2), (2, 2)]);
    assert_eq!(then(&[1, 1, 2]), [(0, 2), (2, 1)]);
    // One that is absent, then the end of the queue again, with depth 1.
    assert_eq!(then(&[0, 0, 0]), [(1, 2), (2, 2)]);
    assert_eq!(then(&[0, 0, 0, 0]), [(1, 2), (2, 2), (0, 1)]);
    assert_eq!(then(&[1, 1, 1, 1, 0, 0]), [(2, 2), (1, 1)]);
    assert_eq!(then(&[0, 0, 0, 1, 1, 1, 2, 2, 2]), []);
}

#[test]
fn an_unlock_before_any_lock() {
    let table = table(&[&[unlock(0), lock(0)], &[lock(0)]]);
    assert_eq!(queue(&table, &[0]), []);
    assert_eq!(queue(&table, &[1, 0, 0]), [(1, 1), (0, 1)]);
}

#[test]
fn mutexes_count_apart() {
    let table = table(&[&[lock(0), lock(1), lock(0), unlock(1), unlock(0)]]);
    let depths = |entries: usize| {
        let site = after(&table, &vec![0; entries]);
        [0, 1].map(|mutex| site.mutex(mutex).map(|queued| queued.depth).sum::<u8>())
    };
    assert_eq!([3, 4, 5].map(depths), [[2, 1], [2, 0], [1, 0]]);
}

#[test]
fn an_owner_between_two_unlocks() {
    let owner = [
        lock(0),
        lock(0),
        unlock(0),
        mutex_test(0, &[0]),
        unlock(0),
        mutex_test(1, &[0]),
    ];
    let next = [lock(0), lock(0), mutex_test(0, &[0]), mutex_wait(1, &[0])];
    let table = table(&[&owner, &next]);
    let cells = |schedule: &[u8], actor| after(&table, schedule).actor(actor).cells[..2].to_vec();
    // It still owns it: the other one's test finds nothing, and its wait is not ready.
    let once = [0, 0, 1, 1, 0, 0, 1];
    assert_eq!(cells(&once, 0), [1, 0]);
    assert_eq!(cells(&once, 1), [0, 0]);
    assert_eq!(ready(&table, &once).unwrap().mask, 1);
    assert_eq!(refused(ready(&table, &[&once[..], &[1]].concat())), (13, 7));
    // The second Unlock hands it on, with the depth that the other has.
    let twice = [&once[..], &[0, 0, 1]].concat();
    assert_eq!(cells(&twice, 0), [1, 0]);
    assert_eq!(cells(&twice, 1), [0, 1]);
    assert_eq!(queue(&table, &twice), [(1, 2)]);
    assert_eq!(ready(&table, &twice).unwrap().ending, Ending::Finished);
}

#[test]
fn an_unlock_that_is_missing() {
    let routine = [lock(0), mutex_wait(0, &[0]), unlock(0)];
    let task = [&[lock(0), mutex_wait(0, &[0])][..], &routine].concat();
    let table = table(&[&task, &routine]);
    let answer = ready(&table, &[0, 1, 0, 0, 0, 0]).unwrap();
    assert_eq!((answer.mask, answer.ending), (0, Ending::Stuck));
}

#[test]
fn every_depth() {
    let table = alike(2, &[lock(0); MOST_ACTIONS]);
    for depth in 1..=MOST_ACTIONS {
        let schedule = [vec![1; MOST_ACTIONS], vec![0; depth]].concat();
        assert_eq!(queue(&table, &schedule), [(1, 32), (0, depth as u8)]);
    }
    let half = [[lock(0); 16], [unlock(0); 16]].concat();
    let table = alike(1, &half);
    for unlocks in 0..16 {
        assert_eq!(
            queue(&table, &vec![0; 16 + unlocks]),
            [(0, 16 - unlocks as u8)]
        );
    }
    assert_eq!(queue(&table, &[0; 32]), []);
}

#[test]
fn bytes_to_the_letter() {
    let table = table(&[
        &[lock(0), lock(1), lock(1)],
        &[lock(1), lock(1), lock(1)],
        &[note(0)],
    ]);
    let report = report(&table, &[1, 0, 1, 0, 0, 2, 1]);
    // Behind two empty mailboxes; the journal comes after.
    let end = [0, 0, 0, 0, 1, 0, 1, 2, 1, 3, 0, 2, 1, 0, 2, 0, 0, 0, 0, 0];
    assert_eq!(report[33 * 3 + 8 * 7..], end);
}

#[test]
fn eight_queues_of_eight() {
    let mut script: Vec<Action> = (0..MOST).map(lock).collect();
    script.resize(MOST_ACTIONS, note(0));
    let table = Layout::new(MOST, MOST, &[&script[..]; MOST as usize]).bytes();
    let schedule: Vec<u8> = (0..MOST).rev().cycle().take(256).collect();
    let report = report(&table, &schedule);
    let (before, journal) = (33 * 8 + 8 * 256 + 2 * 8, 2 + 6 * 24 * 8);
    assert_eq!(report.len(), before + 8 * (1 + 2 * 8) + journal);
    let queue = [8, 7, 1, 6, 1, 5, 1, 4, 1, 3, 1, 2, 1, 1, 1, 0, 1];
    for section in report[before..].chunks(17).take(8) {
        assert_eq!(section, queue);
    }
}

#[test]
fn the_room() {
    let table = alike(1, &[lock(0); 2]);
    let mut short = [7; REPORT_ROOM - 1];
    assert_eq!(refused(run(&table, &[0, 0], &mut short)), (10, 0));
    assert_eq!(short, [7; 4_513]);
    assert!(run(&table, &[0, 0], &mut [7; 4_514]).is_ok());
    // What every table's counts can come to, 33, 8, 2, 2, 1, 2 and 6 bytes each.
    let counts = 33 * 8 + 8 * 256 + 2 * 8 + 2 * 256 + 8 + 2 * 64 + 2 + 6 * 256;
    assert_eq!(REPORT_ROOM, counts);
}

#[test]
fn what_may_trade_places_ends_alike() {
    let own = [lock(0), lock(0), unlock(0), mutex_test(0, &[0])];
    let table = alike(2, &own);
    let alike = |one: &[u8], other: &[u8]| report(&table, one) == report(&table, other);
    // A Lock and an Unlock, each where the depth is 2 or becomes so.
    assert_eq!(pair(&table, 0, 2, 1, 1), Ok(false));
    let (one, other) = ([0, 0, 1, 0, 1], [0, 0, 1, 1, 0]);
    assert_eq!(same(&table, &one, &other), same_after(10));
    assert!(alike(&one, &other));
    // Two Unlocks.
    assert_eq!(pair(&table, 0, 2, 1, 2), Ok(false));
    let (one, other) = ([0, 0, 1, 1, 0, 1], [0, 0, 1, 1, 1, 0]);
    assert_eq!(same(&table, &one, &other), same_after(15));
    assert!(alike(&one, &other));
    // Two Locks are dependent, also where both only add to a depth and the order leaves no trace.
    assert_eq!(pair(&table, 0, 1, 1, 1), Ok(true));
    let (one, other) = ([0, 1, 0, 1], [0, 1, 1, 0]);
    assert_eq!(same(&table, &one, &other), different_after(6));
    assert!(alike(&one, &other));
}
