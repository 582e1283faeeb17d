//! The proved run, ready answer and page, called from Rust: document 01's cases (a) to (f).

use order_engine::{Ending, PAGE_ROOM, REPORT_ROOM, Ready, Refusal, page, ready, run};
use tables::TABLE_A as A;

fn numbers<T: std::fmt::Debug>(answer: Result<T, Refusal>) -> (u32, u32) {
    let refusal = answer.unwrap_err();
    (refusal.number(), refusal.position())
}

/// The refusal of a run, of the ready answer and of a page, which write nothing.
fn refused(schedule: &[u8]) -> (u32, u32) {
    let mut report = [7; REPORT_ROOM];
    let refusal = numbers(run(&A, schedule, &mut report));
    assert_eq!(report, [7; REPORT_ROOM]);
    assert_eq!(numbers(ready(&A, schedule)), refusal);
    assert_eq!(numbers(page(&A, schedule, &mut report)), refusal);
    assert_eq!(report, [7; REPORT_ROOM]);
    refusal
}

#[test]
fn case_a() {
    let mut report = [7; REPORT_ROOM + 1];
    let view = run(&A, &[0, 1, 0, 1], &mut report).unwrap();
    assert_eq!(view.bytes().len(), 102);
    let actor = view.actors().nth(1).unwrap();
    assert_eq!(actor.position, 2);
    assert_eq!(actor.cells, [0, 0, 149, 1, 0, 0, 0, 0]);
    assert!(report[102..].iter().all(|&byte| byte == 7));
}

#[test]
fn cases_b_to_d() {
    assert_eq!(refused(&[1, 1]), (13, 1));
    assert_eq!(refused(&[0, 0, 0]), (12, 2));
    assert_eq!(refused(&[2]), (11, 0));
}

#[test]
fn cases_e_and_f() {
    let going = |mask, count| Ready {
        mask,
        count,
        ending: Ending::Going,
    };
    assert_eq!(ready(&A, &[]), Ok(going(3, 2)));
    assert_eq!(ready(&A, &[1]), Ok(going(1, 1)));
    let finished = ready(&A, &[0, 1, 0, 1]).unwrap();
    assert_eq!(finished.ending, Ending::Finished);
}

#[test]
fn a_page() {
    let mut buffer = [7; PAGE_ROOM];
    let page = page(&A, &[1], &mut buffer).unwrap();
    let words: Vec<Vec<&str>> = page.lines().map(|line| line.split(' ').collect()).collect();
    assert!(words[0].starts_with(&["0", "", "0", "ready"]));
    assert!(words[1].starts_with(&["1", "", "1", "waits"]));
    assert_eq!(page.len(), 204);
    assert!(buffer[204..].iter().all(|&byte| byte == 7));
}

#[test]
fn a_short_buffer() {
    assert_eq!(numbers(run(&A, &[], &mut [0; REPORT_ROOM - 1])), (10, 0));
    assert_eq!(numbers(run(&[], &[9], &mut [])), (10, 0));
    assert_eq!(numbers(page(&A, &[], &mut [0; PAGE_ROOM - 1])), (20, 0));
    assert_eq!(numbers(page(&[], &[9], &mut [])), (20, 0));
}
