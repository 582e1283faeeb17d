//! Document 01's cases (a) to (h) on table A; with document 02's journal, (a) has two bytes more. The reader's tests have (i) and (j).

mod common;

use common::{A, after, refused, report, same_after};
use reference::{Ending, Ready, pair, ready, route, run, same};

fn run_refused(schedule: &[u8]) -> (u32, u32) {
    let mut buffer = [7; 4_514];
    let answer = refused(run(&A, schedule, &mut buffer));
    assert_eq!(buffer, [7; 4_514]);
    assert_eq!(refused(ready(&A, schedule)), answer);
    answer
}

#[test]
fn case_a() {
    let site = after(&A, &[0, 1, 0, 1]);
    assert_eq!(site.actor(1).cells, [0, 0, 149, 1, 0, 0, 0, 0]);
    let report = report(&A, &[0, 1, 0, 1]);
    assert_eq!(report.len(), 102);
    // Two actors: position and cells.
    assert_eq!(report[0..5], [2, 149, 0, 0, 0]);
    assert_eq!(report[33], 2);
    // Two actions of actor 0, two of actor 1.
    assert_eq!(report[66..74], [0; 8]);
    assert_eq!(report[74..82], [2, 1, 0, 0, 149, 0, 0, 0]);
    assert_eq!(report[82..90], [2, 0, 1, 0, 149, 0, 0, 0]);
    assert_eq!(report[90..98], [0; 8]);
    // One mailbox.
    assert_eq!(report[98..100], [0, 0]);
    // The journal.
    assert_eq!(report[100..], [0, 0]);
}

#[test]
fn cases_b_to_d() {
    assert_eq!(run_refused(&[1, 1]), (13, 1));
    assert_eq!(run_refused(&[0, 0, 0]), (12, 2));
    assert_eq!(run_refused(&[2]), (11, 0));
}

#[test]
fn cases_e_and_f() {
    let answer = |mask, count, ending| {
        Ok(Ready {
            mask,
            count,
            ending,
        })
    };
    assert_eq!(ready(&A, &[]), answer(3, 2, Ending::Going));
    assert_eq!(ready(&A, &[1]), answer(1, 1, Ending::Going));
    assert_eq!(ready(&A, &[0, 1, 0, 1]), answer(0, 0, Ending::Finished));
}

#[test]
fn case_g() {
    assert_eq!(pair(&A, 0, 1, 1, 0), Ok(false));
    assert_eq!(pair(&A, 0, 1, 1, 1), Ok(true));
}

#[test]
fn case_h() {
    let (first, second) = ([0, 0, 1, 1], [1, 0, 0, 1]);
    assert_eq!(same(&A, &first, &second), same_after(6));
    let mut positions = [9; 7];
    assert_eq!(route(&A, &first, &second, &mut positions), Ok(2));
    assert_eq!(positions, [1, 0, 9, 9, 9, 9, 9]);
}
