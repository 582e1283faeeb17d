//! Stepping, kind by kind, and the readings of document 01 that are easy to miss.

mod common;

use common::*;
use reference::{Ending, Name, ready, run};
use tables::action::*;

/// The cells of an actor after a schedule.
fn cells(table: &[u8], schedule: &[u8], actor: usize) -> [u32; 8] {
    after(table, schedule).actor(actor).cells
}

/// The eight bytes of an action in the report, with two mailboxes and two mutexes.
fn reported(table: &[u8], schedule: &[u8], actor: usize, action: usize) -> [u8; 8] {
    let site = after(table, schedule);
    let bytes = site.communications(actor, action + 1)[action].bytes();
    let actors = usize::from(table[1]);
    let before: usize = (0..actor).map(|a| usize::from(table[6 + 4 * a])).sum();
    let at = 33 * actors + 8 * (before + action);
    assert_eq!(report(table, schedule)[at..at + 8], bytes);
    bytes
}

#[test]
fn local_steps() {
    let large = [0, 1, 0, 0, 252, 255, 255, 255];
    let table = table(&[&[
        set(0, 3),
        large,
        add(0, 1),
        lesser(0, 1),
        set(1, 2),
        add(1, 1),
    ]]);
    let after = |steps: usize| cells(&table, &vec![0; steps], 0)[..2].to_vec();
    assert_eq!(after(2), [3, u32::MAX - 3]);
    assert_eq!(after(3), [u32::MAX, u32::MAX - 3]);
    assert_eq!(after(4), [u32::MAX - 3, u32::MAX - 3]);
    assert_eq!(after(6), [u32::MAX - 3, 4]);
}

#[test]
fn a_send_keeps_its_value() {
    let sender = [set(0, 5), send(0, 0), set(0, 6)];
    let table = table(&[&sender, &[receive(0, 1), wait_any(2, &[0])]]);
    // A pending Send shows its value.
    assert_eq!(reported(&table, &[0, 0], 0, 1), [1, 0, 0, 0, 5, 0, 0, 0]);
    let schedule = [0, 0, 0, 1, 1];
    assert_eq!(cells(&table, &schedule, 1)[1..3], [5, 1]);
    assert_eq!(reported(&table, &schedule, 0, 1), [2, 1, 0, 0, 5, 0, 0, 0]);
    assert_eq!(reported(&table, &schedule, 1, 0), [2, 0, 1, 0, 5, 0, 0, 0]);
}

#[test]
fn a_value_is_written_when_picked_up() {
    let receiver = [set(1, 9), receive(0, 1), test_any(2, &[1])];
    let table = table(&[&[set(0, 5), send(0, 0)], &receiver]);
    assert_eq!(reported(&table, &[1, 1], 1, 1), [1, 0, 0, 0, 0, 0, 0, 0]);
    assert_eq!(cells(&table, &[1, 1, 0, 0], 1)[1..3], [9, 0]);
    assert_eq!(cells(&table, &[1, 1, 0, 0, 1], 1)[1..3], [5, 1]);
    assert_eq!(cells(&table, &[1, 1, 1], 1)[1..3], [9, 0]);
}

#[test]
fn the_oldest_pending_step_is_paired() {
    let sender = [set(0, 1), send(0, 0), set(0, 2), send(0, 0)];
    let receiver = [receive(0, 0), receive(0, 1)];
    let table = table(&[&sender, &receiver, &[receive(0, 2)]]);
    let site = after(&table, &[0, 0, 0, 0, 1]);
    assert_eq!(site.mailbox(0), [Name::new(0, 3)]);
    let schedule = [2, 1, 1, 0, 0];
    let site = after(&table, &schedule);
    assert_eq!(site.mailbox(0), [Name::new(1, 0), Name::new(1, 1)]);
    assert_eq!(reported(&table, &schedule, 2, 0), [2, 0, 1, 0, 1, 0, 0, 0]);
}

#[test]
fn an_actor_pairs_with_its_own_step() {
    let own = [set(0, 7), receive(0, 1), send(0, 0), wait_any(2, &[1])];
    let table = table(&[&own]);
    assert_eq!(cells(&table, &[0; 4], 0)[..3], [7, 7, 1]);
    assert_eq!(reported(&table, &[0; 4], 0, 1), [2, 0, 2, 0, 7, 0, 0, 0]);
    assert_eq!(reported(&table, &[0; 4], 0, 2), [2, 0, 1, 0, 7, 0, 0, 0]);
}

#[test]
fn mailboxes_are_apart() {
    let table = table(&[&[send(0, 0)], &[receive(1, 0)]]);
    let site = after(&table, &[0, 1]);
    assert_eq!(site.mailbox(0), [Name::new(0, 0)]);
    assert_eq!(site.mailbox(1), [Name::new(1, 0)]);
}

#[test]
fn a_done_send_stops_the_search() {
    let own = [
        set(0, 7),
        receive(0, 1),
        send(0, 0),
        test_any(3, &[2, 1]),
        test_any(4, &[1, 2]),
    ];
    let table = table(&[&own]);
    assert_eq!(cells(&table, &[0; 4], 0)[..4], [7, 0, 0, 1]);
    assert_eq!(cells(&table, &[0; 5], 0)[..5], [7, 7, 0, 1, 1]);
}

#[test]
fn a_pending_step_does_not_stop_the_search() {
    let own = [
        receive(1, 0),
        set(0, 7),
        receive(0, 1),
        send(0, 0),
        test_any(3, &[0, 0, 2, 3]),
        test_any(3, &[0]),
    ];
    let table = table(&[&own]);
    assert_eq!(cells(&table, &[0; 5], 0)[..4], [7, 7, 0, 3]);
    // None done: the result becomes 0.
    assert_eq!(cells(&table, &[0; 6], 0)[..4], [7, 7, 0, 0]);
}

#[test]
fn the_result_cell_is_written_last() {
    let own = [set(0, 7), receive(0, 1), send(0, 0), wait_any(1, &[1])];
    assert_eq!(cells(&table(&[&own]), &[0; 4], 0)[1], 1);
}

#[test]
fn a_value_may_be_picked_up_again() {
    let own = [
        set(0, 7),
        receive(0, 1),
        send(0, 0),
        wait_any(2, &[1]),
        set(1, 0),
        wait_any(2, &[1]),
    ];
    assert_eq!(cells(&table(&[&own]), &[0; 6], 0)[1], 7);
}

#[test]
fn waiting_for_a_communication() {
    let table = table(&[&[send(0, 0), wait_any(1, &[0])], &[receive(0, 0)]]);
    assert_eq!(refused(ready(&table, &[0, 0])), (13, 1));
    let answer = ready(&table, &[0]).unwrap();
    assert_eq!((answer.mask, answer.count), (2, 1));
    let answer = ready(&table, &[0, 1]).unwrap();
    assert_eq!((answer.mask, answer.ending), (1, Ending::Going));
    // A Send that is done has no value to write.
    assert_eq!(cells(&table, &[0, 1, 0], 0)[..2], [0, 1]);
}

#[test]
fn testing_mutexes() {
    let looking = [lock(1), mutex_test(0, &[0, 1, 1]), mutex_test(0, &[0])];
    let table = table(&[&[lock(1), unlock(1)], &looking]);
    assert_eq!(cells(&table, &[0, 1, 1], 1)[0], 0);
    assert_eq!(cells(&table, &[0, 1, 0, 1], 1)[0], 2);
    assert_eq!(cells(&table, &[0, 1, 0, 1, 1], 1)[0], 0);
}

#[test]
fn waiting_for_a_mutex() {
    let waiting = [mutex_wait(0, &[0, 1]), set(0, 9)];
    let stuck = table(&[&waiting, &[lock(0)]]);
    assert_eq!(refused(ready(&stuck, &[0])), (13, 0));
    let answer = ready(&stuck, &[1]).unwrap();
    assert_eq!((answer.mask, answer.count), (0, 0));
    assert_eq!(answer.ending, Ending::Stuck);
    let going = table(&[&[lock(1), mutex_wait(0, &[0, 1])]]);
    assert_eq!(cells(&going, &[0, 0], 0)[0], 2);
}

#[test]
fn an_actor_without_actions_is_finished() {
    let table = table(&[&[], &[set(0, 1)]]);
    assert_eq!(refused(ready(&table, &[0])), (12, 0));
    assert_eq!(ready(&table, &[]).unwrap().mask, 2);
    let answer = ready(&table, &[1]).unwrap();
    assert_eq!(answer.ending, Ending::Finished);
}

#[test]
fn the_first_refused_entry_counts() {
    let table = table(&[&[mutex_wait(0, &[0])], &[set(0, 1)]]);
    assert_eq!(refused(ready(&table, &[1, 1, 0, 8])), (12, 1));
    assert_eq!(refused(ready(&table, &[1, 0, 8, 1])), (13, 1));
    assert_eq!(refused(ready(&table, &[1, 255, 0])), (11, 1));
}

#[test]
fn the_report_buffer_comes_first() {
    let mut short = [3; 4_513];
    assert_eq!(refused(run(&[], &[9], &mut short)), (10, 0));
    assert_eq!(refused(run(&A, &[], &mut short)), (10, 0));
    assert_eq!(short, [3; 4_513]);
    let mut enough = [3; 4_515];
    assert_eq!(refused(run(&[], &[9], &mut enough)), (1, 0));
    assert_eq!(enough, [3; 4_515]);
}

#[test]
fn the_sections_in_order() {
    let first = [send(1, 0), lock(1), set(7, 8)];
    let table = table(&[&first, &[send(1, 0), lock(1), lock(0)]]);
    let report = report(&table, &[1, 1, 0, 0, 0]);
    let mut expected = vec![3];
    expected.extend([0; 28]);
    expected.extend([8, 0, 0, 0]);
    expected.push(2);
    expected.extend([0; 32]);
    for _ in 0..2 {
        expected.extend([1, 0, 0, 0, 0, 0, 0, 0]);
        expected.extend([0; 16]);
    }
    expected.extend([0, 0]);
    expected.extend([2, 0, 1, 0, 0, 0]);
    expected.push(0);
    expected.extend([2, 1, 1, 0, 1]);
    expected.extend([0, 0]);
    assert_eq!(report, expected);
}

#[test]
fn full_queues() {
    let everyone = |script: &[[u8; 8]]| {
        let mut bytes = table(&[script; 8]);
        (bytes[2], bytes[3]) = (8, 8);
        bytes
    };
    let schedule: Vec<u8> = (0..8).flat_map(|actor| [actor; 32]).collect();
    let sends = everyone(&[send(0, 0); 32]);
    let sections = 8 * 33 + 8 * 256 + 8 * 2 + 8 + 2;
    assert_eq!(report(&sends, &schedule).len(), sections + 256 * 2);
    let mut script = vec![send(7, 0); 24];
    script.extend((0..8).map(lock));
    let locks = everyone(&script);
    assert_eq!(report(&locks, &schedule).len(), sections + 192 * 2 + 64 * 2);
    // A 257th entry.
    let longer = [&schedule[..], &[0]].concat();
    assert_eq!(refused(ready(&sends, &longer)), (12, 256));
}
