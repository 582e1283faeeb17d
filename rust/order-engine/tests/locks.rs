//! Locks and Unlocks, by the proved calls called from Rust: document 02, request W7.

use order_engine::PairVerdict::{Dependent, Independent};
use order_engine::{Ending, REPORT_ROOM, Reason, Refusal, StepName};
use order_engine::{pair, ready, route, run, same};
use tables::action::{lock, mutex_test, mutex_wait, unlock};
use tables::layout::{MOST, MOST_ACTIONS};
use tables::{Action, Layout};

/// A table with one mutex.
fn table(actors: &[&[Action]]) -> Vec<u8> {
    Layout::new(0, 1, actors).bytes()
}

/// Who is queued after a schedule and how deep, the owner first.
fn queue(table: &[u8], schedule: &[u8]) -> Vec<(u8, u8)> {
    let mut buffer = [7; REPORT_ROOM];
    let report = run(table, schedule, &mut buffer).unwrap();
    let mutex = report.mutexes().next().unwrap();
    let queue: Vec<_> = mutex.queue().collect();
    assert_eq!(mutex.owner(), queue.first().copied());
    let pairs = queue.iter().map(|queued| (queued.actor, queued.depth));
    pairs.collect()
}

fn refusal<T: std::fmt::Debug>(answer: Result<T, Refusal>) -> (Reason, u32) {
    let refusal = answer.unwrap_err();
    (refusal.reason(), refusal.position())
}

#[test]
fn a_lock_and_an_unlock_each_count_one() {
    let own = [lock(0), lock(0), unlock(0), unlock(0), unlock(0), lock(0)];
    let table = table(&[&own[..]; 3]);
    let then = |entries: &[u8]| queue(&table, &[&[2, 2, 0, 0, 1, 1], entries].concat());
    assert_eq!(queue(&table, &[2, 0, 1]), [(2, 1), (0, 1), (1, 1)]);
    assert_eq!(queue(&table, &[2, 0, 1, 0]), [(2, 1), (0, 2), (1, 1)]);
    assert_eq!(then(&[]), [(2, 2), (0, 2), (1, 2)]);
    assert_eq!(then(&[2]), [(2, 1), (0, 2), (1, 2)]);
    assert_eq!(then(&[0]), [(2, 2), (0, 1), (1, 2)]);
    assert_eq!(then(&[2, 2, 0]), [(0, 1), (1, 2)]);
    assert_eq!(then(&[0, 0, 0, 0]), [(2, 2), (1, 2), (0, 1)]);
    assert_eq!(then(&[0, 0, 1, 1, 2, 2]), []);
}

#[test]
fn every_depth() {
    let table = table(&[&[lock(0); MOST_ACTIONS][..]; 2]);
    for depth in 1..=32 {
        let schedule = [vec![0; usize::from(depth)], vec![1; 32]].concat();
        assert_eq!(queue(&table, &schedule), [(0, depth), (1, 32)]);
    }
}

#[test]
fn every_actor_at_the_greatest_depth() {
    let table = table(&[&[lock(0); MOST_ACTIONS][..]; MOST as usize]);
    let schedule: Vec<u8> = (0..MOST).cycle().take(256).collect();
    let deepest: Vec<(u8, u8)> = (0..MOST).map(|actor| (actor, 32)).collect();
    assert_eq!(queue(&table, &schedule), deepest);
}

#[test]
fn a_queue_of_eight_depths() {
    let scripts: Vec<Vec<Action>> = (1..=MOST.into())
        .map(|locks| vec![lock(0); locks])
        .collect();
    let scripts: Vec<&[Action]> = scripts.iter().map(Vec::as_slice).collect();
    let turns = (0..MOST)
        .rev()
        .chain((0..MOST).flat_map(|actor| vec![actor; actor.into()]));
    let schedule: Vec<u8> = turns.collect();
    let expected: Vec<(u8, u8)> = (0..MOST).rev().map(|actor| (actor, actor + 1)).collect();
    assert_eq!(queue(&table(&scripts), &schedule), expected);
}

#[test]
fn two_bytes_an_entry() {
    let table = Layout::new(0, 2, &[&[lock(1), lock(1)], &[lock(1)]]).bytes();
    let mut buffer = [7; REPORT_ROOM];
    let report = run(&table, &[1, 0, 0], &mut buffer).unwrap();
    assert_eq!(report.bytes()[2 * 33 + 3 * 8..], [0, 2, 1, 1, 0, 2, 0, 0]);
    let numbers: Vec<(u8, usize)> = report
        .mutexes()
        .map(|mutex| (mutex.number(), mutex.queue().len()))
        .collect();
    assert_eq!(numbers, [(0, 0), (1, 2)]);
    assert_eq!(report.mutexes().next().unwrap().owner(), None);
    assert_eq!(report.journal().entries().len(), 0);
}

#[test]
fn who_owns_it_between_two_unlocks() {
    let test = mutex_test(0, &[0]);
    let owner = [lock(0), lock(0), unlock(0), test, unlock(0)];
    let table = table(&[&owner, &[lock(0), test, mutex_wait(1, &[0])]]);
    let once = [0, 0, 1, 0, 0, 1];
    let mut buffer = [7; REPORT_ROOM];
    let report = run(&table, &once, &mut buffer).unwrap();
    let found: Vec<u32> = report.actors().map(|actor| actor.cells[0]).collect();
    assert_eq!(found, [1, 0]);
    assert_eq!(ready(&table, &once).unwrap().mask, 1);
    let too_early = [&once[..], &[1]].concat();
    assert_eq!(refusal(ready(&table, &too_early)), (Reason::NotReady, 6));
    let twice = [&once[..], &[0, 1]].concat();
    assert_eq!(ready(&table, &twice).unwrap().ending, Ending::Finished);
}

#[test]
fn what_trades_places() {
    let own = [lock(0), lock(0), unlock(0)];
    let table = table(&[&own, &own]);
    let verdict = |k, l| pair(&table, StepName::new(0, k), StepName::new(1, l)).unwrap();
    assert_eq!(
        [verdict(1, 1), verdict(1, 2), verdict(2, 2)],
        [Dependent, Independent, Independent]
    );
    let (one, other) = ([0, 0, 1, 0, 1], [0, 0, 1, 1, 0]);
    assert!(same(&table, &one, &other).unwrap().is_same());
    assert_eq!(route(&table, &one, &other, &mut [7; 10]).unwrap(), [3]);
    assert_eq!(queue(&table, &one), queue(&table, &other));
    // Two Locks that only add to depths.
    let (one, other) = ([0, 1, 0, 1], [0, 1, 1, 0]);
    assert!(!same(&table, &one, &other).unwrap().is_same());
    assert_eq!(queue(&table, &one), queue(&table, &other));
}

#[test]
fn the_room() {
    let table = table(&[&[lock(0), lock(0)]]);
    let mut short = [7; 4_513];
    assert_eq!(
        refusal(run(&table, &[0, 0], &mut short)),
        (Reason::ReportRoom, 0)
    );
    assert_eq!(short, [7; 4_513]);
    assert!(run(&table, &[0, 0], &mut [7; 4_514]).is_ok());
}
