//! Notes and the journal, against document 02, request W5.

mod common;

use common::*;
use reference::{Name, REPORT_ROOM, check, pair, run, same};
use tables::action::*;
use tables::layout::{MOST, MOST_ACTIONS};
use tables::{Kind, Layout};

/// The last section of a report whose journal has so many entries.
fn journal(table: &[u8], schedule: &[u8], entries: usize) -> Vec<u8> {
    let report = report(table, schedule);
    report[report.len() - 2 - 6 * entries..].to_vec()
}

#[test]
fn bytes_to_the_letter() {
    let first = [set(3, 0x0403_0201), note(3)];
    let table = table(&[&first, &[lock(1), set(0, 7), note(0)], &[send(0, 0)]]);
    let schedule = [1, 1, 1, 0, 0, 2];
    let written = [2, 0, 1, 2, 7, 0, 0, 0, 0, 1, 1, 2, 3, 4];
    assert_eq!(journal(&table, &schedule, 2), written);
    // It stands behind two mailboxes, in one of which a Send waits, and two mutexes, one of them owned.
    let actors_and_actions = 33 * 3 + 8 * 6;
    let queues = [1, 0, 2, 0, 0, 0, 0, 1, 1, 1];
    let report = report(&table, &schedule);
    assert_eq!(
        report[actors_and_actions..],
        [&queues[..], &written].concat()
    );
    // Nothing else of a Note is in the report.
    assert_eq!(report[33 * 3 + 8..33 * 3 + 16], [0; 8]);
}

#[test]
fn a_fresh_journal_is_empty() {
    let table = table(&[&[note(0)]]);
    assert_eq!(journal(&table, &[], 0), [0, 0]);
    assert_eq!(after(&table, &[]).journal().len(), 0);
    assert_eq!(journal(&table, &[0], 1), [1, 0, 0, 0, 0, 0, 0, 0]);
}

#[test]
fn the_value_is_that_of_the_moment() {
    let table = table(&[&[note(2), set(2, 5), note(2), set(2, 6), add(2, 2), note(2)]]);
    let site = after(&table, &[0; 6]);
    let entries: Vec<(usize, u32)> = site
        .journal()
        .map(|entry| (entry.step.action(), entry.value))
        .collect();
    assert_eq!(entries, [(0, 0), (2, 5), (5, 12)]);
}

#[test]
fn a_value_that_was_received() {
    let pump = [receive(0, 4), note(4), wait_any(5, &[0]), note(4), note(5)];
    let table = table(&[&[set(0, 149), send(0, 0), set(0, 1)], &pump]);
    // Met, and not picked up before the first Note.
    let site = after(&table, &[0, 0, 0, 1, 1, 1, 1, 1]);
    let values: Vec<u32> = site.journal().map(|entry| entry.value).collect();
    assert_eq!(values, [0, 149, 1]);
}

#[test]
fn two_orders_of_two_notes() {
    let table = table(&[&[set(0, 1), note(0)], &[set(0, 2), note(0)]]);
    let (one, other) = ([0, 0, 1, 1], [0, 1, 1, 0]);
    assert_eq!(same(&table, &one, &other), different_after(5));
    assert_ne!(report(&table, &one), report(&table, &other));
    assert_eq!(
        journal(&table, &one, 2),
        [2, 0, 0, 1, 1, 0, 0, 0, 1, 1, 2, 0, 0, 0]
    );
    assert_eq!(
        journal(&table, &other, 2),
        [2, 0, 1, 1, 2, 0, 0, 0, 0, 1, 1, 0, 0, 0]
    );
    // A Note and another actor's Set may trade places.
    assert_eq!(same(&table, &one, &[0, 1, 0, 1]), same_after(6));
    assert_eq!(report(&table, &one), report(&table, &[0, 1, 0, 1]));
}

/// An action of every kind behind a Send and a Receive, by number.
fn every_kind() -> Vec<tables::Action> {
    let kinds = [
        set(0, 1),
        add(0, 1),
        lesser(0, 1),
        send(0, 0),
        receive(0, 0),
        test_any(0, &[0, 1]),
        wait_any(0, &[0, 1]),
        lock(0),
        unlock(0),
        mutex_test(0, &[0, 1]),
        mutex_wait(0, &[0, 1]),
        note(0),
    ];
    assert!(
        kinds
            .iter()
            .zip(Kind::ALL)
            .all(|(action, one)| kind(action) == Some(one))
    );
    [&[send(0, 0), receive(0, 0)][..], &kinds].concat()
}

#[test]
fn a_note_against_every_kind() {
    let script = every_kind();
    let table = table(&[&script, &script]);
    for other in Kind::ALL {
        let (own, action) = (2 + Kind::Note.code(), 2 + other.code());
        let of_another = Ok(other == Kind::Note);
        assert_eq!(pair(&table, 0, own, 1, action), of_another, "{other:?}");
        assert_eq!(pair(&table, 1, action, 0, own), of_another, "{other:?}");
        assert_eq!(pair(&table, 0, own, 0, action), Ok(true), "{other:?}");
        assert_eq!(pair(&table, 0, action, 0, own), Ok(true), "{other:?}");
    }
}

#[test]
fn the_longest_report() {
    let script = [note(0); MOST_ACTIONS];
    let table = Layout::new(MOST, MOST, &[&script[..]; MOST as usize]).bytes();
    let schedule: Vec<u8> = (0..MOST).cycle().take(Name::COUNT).collect();
    let report = report(&table, &schedule);
    assert_eq!(report.len(), 3_874);
    let from = report.len() - 6 * Name::COUNT;
    assert_eq!(report[from - 2..from], [0, 1]);
    for (entry, step) in report[from..].chunks(6).zip(0..=255) {
        assert_eq!(entry, [step % MOST, step / MOST, 0, 0, 0, 0]);
    }
}

#[test]
fn the_room() {
    let table = table(&[&[note(0)]]);
    let mut short = [7; REPORT_ROOM - 1];
    assert_eq!(refused(run(&table, &[0], &mut short)), (10, 0));
    assert_eq!(short, [7; 4_513]);
    assert!(run(&table, &[0], &mut [7; 4_514]).is_ok());
}

/// Number and position of the refusal of one actor with these actions.
fn one_actor(actions: &[[u8; 8]]) -> (u32, u32) {
    refused(check(&table(&[actions])))
}

#[test]
fn what_a_note_is_refused_for() {
    assert_eq!(one_actor(&[note(7)]), (0, 0));
    assert_eq!(one_actor(&[note(8)]), (7, 8));
    assert_eq!(one_actor(&[note(255)]), (7, 8));
    for byte in 2..8 {
        let mut action = note(7);
        action[byte] = 1;
        assert_eq!(one_actor(&[set(0, 1), action]), (9, 16), "byte {byte}");
        action[1] = 8;
        assert_eq!(one_actor(&[action]), (7, 8), "byte {byte}");
    }
    for list in [test_any, wait_any] {
        assert_eq!(one_actor(&[note(0), list(0, &[0])]), (8, 16));
    }
    let unknown = [12, 0, 0, 0, 0, 0, 0, 0];
    assert_eq!(one_actor(&[note(0), unknown]), (6, 16));
}
