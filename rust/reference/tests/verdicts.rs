//! Pair, same and route against the documents, and the two forms of each rule against each other.

mod common;

use common::*;
use reference::compared::{Compared, compared};
use reference::footprint::Footprint;
use reference::pair::dependent;
use reference::route::room;
use reference::trace::Trace;
use reference::{Name, Same, Schedule, Table, chain_exists, check, pair, quick, replay};
use reference::{replay_stepping, route, same};
use tables::action::*;

/// Whether the last actions of two actors are dependent. Each actor first receives from mailbox 0
/// (action 0) and sends to mailbox 1 (action 1).
fn verdict(a: [u8; 8], b: [u8; 8]) -> bool {
    let posts = [receive(0, 0), send(1, 0)];
    let table = table(&[&[posts[0], posts[1], a], &[posts[0], posts[1], b]]);
    let answer = pair(&table, 0, 2, 1, 2).unwrap();
    assert_eq!(pair(&table, 1, 2, 0, 2), Ok(answer));
    answer
}

#[test]
fn posts_on_one_mailbox() {
    assert!(verdict(send(0, 0), send(0, 1)));
    assert!(!verdict(send(0, 0), send(1, 0)));
    assert!(verdict(receive(1, 0), receive(1, 1)));
    assert!(!verdict(receive(1, 0), receive(0, 0)));
    assert!(!verdict(send(0, 0), receive(0, 0)));
}

#[test]
fn lists_of_communications() {
    for listing in [test_any, wait_any] {
        // A Receive of mailbox 0.
        assert!(verdict(listing(0, &[0]), send(0, 0)));
        assert!(!verdict(listing(0, &[0]), receive(0, 0)));
        assert!(!verdict(listing(0, &[0]), send(1, 0)));
        // A Send to mailbox 1.
        assert!(verdict(listing(0, &[1]), receive(1, 0)));
        assert!(!verdict(listing(0, &[1]), send(1, 0)));
        assert!(!verdict(listing(0, &[1]), receive(0, 0)));
        // Both, in any place.
        assert!(verdict(listing(0, &[1, 1, 1, 0]), send(0, 0)));
        assert!(!verdict(listing(0, &[0, 1]), listing(0, &[1, 0])));
        assert!(!verdict(listing(0, &[0, 1]), lock(0)));
    }
}

#[test]
fn mutexes() {
    assert!(verdict(lock(0), lock(0)));
    assert!(!verdict(lock(0), lock(1)));
    assert!(!verdict(lock(0), unlock(0)));
    assert!(!verdict(unlock(0), unlock(0)));
    for listing in [mutex_test, mutex_wait] {
        assert!(verdict(listing(0, &[1, 0]), unlock(0)));
        assert!(!verdict(listing(0, &[1, 1]), unlock(0)));
        assert!(!verdict(listing(0, &[0]), lock(0)));
        assert!(!verdict(listing(0, &[0]), listing(0, &[0])));
    }
}

#[test]
fn steps_of_one_actor() {
    let table = table(&[&[set(0, 1), set(1, 1)], &[]]);
    assert_eq!(pair(&table, 0, 0, 0, 1), Ok(true));
    assert_eq!(pair(&table, 0, 1, 0, 1), Ok(true));
}

#[test]
fn names_that_are_not_in_the_table() {
    for (a, k) in [(2, 0), (255, 0), (0, 2), (1, 32), (1, 255)] {
        assert_eq!(refused(pair(&A, a, k, 1, 1)), (17, 0));
        assert_eq!(refused(pair(&A, 1, 1, a, k)), (17, 0));
    }
    assert_eq!(refused(pair(&A[..43], 9, 9, 9, 9)), (5, 0));
}

/// Actions of every kind, over two mailboxes and two mutexes, behind `posts` of each sort.
fn every_kind(posts: &[[u8; 8]]) -> Vec<[u8; 8]> {
    let mut actions = posts.to_vec();
    actions.extend([set(0, 1), add(0, 1), lesser(0, 1), lock(0), lock(1)]);
    actions.extend([unlock(0), unlock(1), note(0), note(1)]);
    for list in [&[0][..], &[1], &[2, 3], &[3, 1]] {
        actions.extend([test_any(0, list), wait_any(0, list)]);
    }
    for list in [&[0][..], &[1, 1], &[0, 1]] {
        actions.extend([mutex_test(0, list), mutex_wait(0, list)]);
    }
    actions
}

#[test]
fn footprints_agree_with_the_cases() {
    let script = every_kind(&[send(0, 0), send(1, 0), receive(0, 0), receive(1, 0)]);
    let bytes = table(&[&script, &script]);
    let table = check(&bytes).unwrap();
    let names = (0..2).flat_map(|a| (0..script.len()).map(move |k| Name::new(a, k)));
    let footprint =
        |name: Name| Footprint::of(&table, name, &table.action(name.actor(), name.action()));
    for one in names.clone() {
        for other in names.clone() {
            let expected = dependent(&table, one, other);
            let answer = footprint(one).dependent(&footprint(other));
            assert_eq!(answer, expected, "{one:?} {other:?}");
        }
    }
}

#[test]
fn same_and_different() {
    let table = table(&[&[send(0, 0), set(1, 1)], &[send(0, 0), set(1, 1)]]);
    assert_eq!(same(&table, &[], &[]), same_after(0));
    assert_eq!(same(&table, &[0], &[0]), same_after(0));
    assert_eq!(same(&table, &[0, 1, 0, 1], &[0, 1, 1, 0]), same_after(6));
    assert_eq!(same(&table, &[0, 0, 1, 1], &[0, 1, 1, 0]), same_after(6));
    assert_eq!(same(&table, &[0, 1], &[1, 0]), different_after(1));
    // Other names, other lengths, with the Sends in opposite orders or not.
    assert_eq!(same(&table, &[0, 0], &[0, 1]), different_after(0));
    assert_eq!(same(&table, &[0, 1, 0], &[1, 0, 1]), different_after(0));
    assert_eq!(same(&table, &[0, 1], &[0, 1, 0]), different_after(0));
    assert_eq!(same(&table, &[0, 1, 0], &[1, 0]), different_after(0));
    assert_eq!(same(&table, &[], &[0]), different_after(0));
}

#[test]
fn pairs_by_rising_later_step() {
    // Actors 1 and 2 send to mailbox 1, actors 0 and 3 to mailbox 0.
    let apart = [
        &[send(0, 0)][..],
        &[send(1, 0)],
        &[send(1, 0)],
        &[send(0, 0)],
    ];
    let bytes = table(&apart);
    // Pairs in turn: 01, 02, 12, 03, 13, 23.
    let first = [0, 1, 2, 3];
    for (second, pairs) in [
        ([3, 2, 1, 0], 3),
        ([3, 0, 1, 2], 4),
        ([0, 2, 1, 3], 3),
        ([3, 2, 0, 1], 3),
        ([1, 3, 2, 0], 4),
    ] {
        assert_eq!(same(&bytes, &first, &second), different_after(pairs));
        assert_eq!(quick::same(&bytes, &first, &second), different_after(pairs));
    }
    for second in [[1, 2, 0, 3], [0, 1, 3, 2], [1, 0, 3, 2]] {
        assert_eq!(same(&bytes, &first, &second), same_after(6));
    }
    // By the other schedule's entries it is another pair: 01, 02, then 12, which are actors 3, 0, 1 and 2.
    assert_eq!(same(&bytes, &[3, 0, 1, 2], &first), different_after(1));
}

#[test]
fn pairs_by_rising_earlier_step() {
    let sender = [send(0, 0)];
    let bytes = table(&[&sender, &sender, &sender, &sender]);
    for (second, pairs) in [
        ([1, 0, 2, 3], 1),
        ([2, 0, 1, 3], 2),
        ([0, 2, 1, 3], 3),
        ([3, 0, 1, 2], 4),
        ([0, 3, 1, 2], 5),
        ([0, 1, 3, 2], 6),
        ([3, 0, 2, 1], 3),
    ] {
        assert_eq!(same(&bytes, &[0, 1, 2, 3], &second), different_after(pairs));
    }
    assert_eq!(same(&bytes, &[0, 1, 2, 3], &[0, 1, 2, 3]), same_after(6));
}

#[test]
fn pairs_of_256_entries() {
    let script = [send(0, 0); 32];
    let bytes = table(&[&script[..]; 8]);
    let first: Vec<u8> = (0..256).map(|entry| (entry % 8) as u8).collect();
    for (k, pairs) in [(0, 1), (1, 3), (100, 5_151), (254, 32_640)] {
        let mut second = first.clone();
        second.swap(k, k + 1);
        for answer in [same, quick::same] {
            assert_eq!(answer(&bytes, &first, &second), different_after(pairs));
        }
    }
    for answer in [same, quick::same] {
        assert_eq!(answer(&bytes, &first, &first), same_after(32_640));
    }
}

#[test]
fn refusals_of_two_schedules() {
    assert_eq!(refused(same(&A, &[1, 1], &[2])), (13, 1));
    assert_eq!(refused(same(&A, &[0, 0, 0], &[])), (12, 2));
    assert_eq!(refused(same(&A, &[0], &[0, 2])), (14, 1));
    assert_eq!(refused(same(&A, &[0], &[0, 0, 0, 2])), (15, 2));
    assert_eq!(refused(same(&A, &[], &[1, 1])), (16, 1));
    assert_eq!(refused(route(&A, &[], &[1, 1], &mut [])), (16, 1));
}

#[test]
fn room_for_a_route() {
    let (first, second) = ([0, 0, 1, 1], [1, 0, 0, 1]);
    let mut short = [9; 5];
    assert_eq!(refused(route(&A, &first, &second, &mut short)), (18, 0));
    // Room is asked for even where the route is empty.
    assert_eq!(refused(route(&A, &first, &first, &mut short)), (18, 0));
    assert_eq!(refused(route(&A, &first, &[0], &mut short)), (19, 0));
    assert_eq!(short, [9; 5]);
    assert_eq!(route(&A, &[], &[], &mut []), Ok(0));
    assert_eq!(route(&A, &[0], &[0], &mut []), Ok(0));
    assert_eq!([room(0), room(1), room(2), room(256)], [0, 0, 1, 32_640]);
}

#[test]
fn a_wrong_route() {
    let table = check(&A).unwrap();
    let schedule = [0, 0, 1, 1];
    for replayed in [replay, replay_stepping] {
        assert_eq!(replayed(&table, &schedule, &[]), Ok(schedule.to_vec()));
        assert_eq!(replayed(&table, &schedule, &[1, 0]), Ok(vec![1, 0, 0, 1]));
        // Steps of one actor, a Send and the Wait for it, past the end.
        for (route, index) in [(&[0][..], 0), (&[1, 1, 2], 2), (&[1, 3], 1)] {
            let mistake = replayed(&table, &schedule, route).unwrap_err();
            assert_eq!(mistake.index, index);
        }
        assert!(replayed(&table, &[1, 1], &[0]).is_err());
    }
}

/// All accepted schedules of `length` entries.
fn accepted(table: &[u8], length: usize) -> Vec<Vec<u8>> {
    let mut schedules = vec![vec![]];
    for _ in 0..length {
        let longer = schedules.iter().flat_map(|schedule: &Vec<u8>| {
            (0..table[1]).map(|actor| [&schedule[..], &[actor]].concat())
        });
        schedules = longer
            .filter(|schedule| reference::ready(table, schedule).is_ok())
            .collect();
    }
    schedules
}

/// The verdict and the count, each made without the other: "same" exactly where the steps are the same and
/// no pair ends the search.
fn counted(table: &Table, first: &[u8], second: &[u8], answer: Same) {
    let [first, second] = [first, second].map(|schedule| {
        let trace = Trace::of(table, Schedule::First, schedule);
        trace.unwrap().names().to_vec()
    });
    let Compared { pairs, ended } = compared(table, &first, &second);
    let same_steps = first.iter().all(|name| second.contains(name));
    assert_eq!(answer.is_same, same_steps && !ended);
    assert_eq!(answer.pairs, pairs);
    assert_eq!(ended, same_steps && !answer.is_same);
}

/// The rule, the search through all chains, the number of pairs and the route, on all pairs of schedules of
/// a length.
fn all_pairs(actors: &[&[[u8; 8]]], length: usize) {
    let bytes = table(actors);
    let table = check(&bytes).unwrap();
    let schedules = accepted(&bytes, length);
    for first in &schedules {
        for second in &schedules {
            let answer = same(&bytes, first, second).unwrap();
            let verdict = answer.is_same;
            assert_eq!(verdict, chain_exists(&table, first, second));
            assert_eq!(quick::same(&bytes, first, second), Ok(answer));
            counted(&table, first, second, answer);
            let mut positions = vec![7; room(length) + 1];
            let mut quickly = positions.clone();
            let answer = route(&bytes, first, second, &mut positions);
            assert_eq!(answer.is_ok(), verdict);
            assert_eq!(quick::route(&bytes, first, second, &mut quickly), answer);
            assert_eq!(quickly, positions);
            if let Ok(steps) = answer {
                assert_eq!(report(&bytes, first), report(&bytes, second));
                assert!(positions[steps..].iter().all(|&entry| entry == 7));
                let reached = replay_stepping(&table, first, &positions[..steps]);
                assert_eq!(reached.as_ref(), Ok(second));
            }
        }
    }
}

#[test]
fn the_rule_is_the_search() {
    let sender = [send(0, 0), wait_any(1, &[0])];
    all_pairs(&[&sender, &sender, &[receive(0, 0), test_any(1, &[0])]], 4);
    let locking = [lock(0), mutex_test(0, &[0]), unlock(0)];
    all_pairs(&[&locking, &locking], 6);
    let mixed = [receive(0, 0), lock(1), wait_any(1, &[0]), unlock(1)];
    all_pairs(&[&mixed, &[send(0, 0), lock(1), mutex_wait(0, &[1])]], 6);
    let noting = [set(0, 1), note(0), set(0, 2)];
    all_pairs(&[&noting, &noting], 5);
    all_pairs(&[&noting, &[note(0)], &[note(0), set(0, 1)]], 4);
}
