//! The page against document 02, request W1: its columns, counted by hand, and its refusals.

mod common;

use common::{A, refused, table, written};
use reference::{page, quick};
use tables::Action;
use tables::action::set;

/// The page of an accepted schedule, in the least room, by both ways.
fn laid(table: &[u8], schedule: &[u8]) -> String {
    let page = written(page, 816, table, schedule);
    assert_eq!(written(quick::page, 816, table, schedule), page);
    String::from_utf8(page).unwrap()
}

#[test]
fn table_a_finished() {
    let wanted = "\
0  2 finished        149          0          0          0          0          0          0          0
1  2 finished          0          0        149          1          0          0          0          0
";
    assert_eq!(laid(&A, &[0, 1, 0, 1]), wanted);
    assert_eq!(wanted.len(), 2 * 102);
}

#[test]
fn an_actor_that_waits() {
    let wanted = "\
0  0 ready             0          0          0          0          0          0          0          0
1  1 waits             0          0          0          0          0          0          0          0
";
    assert_eq!(laid(&A, &[1]), wanted);
}

#[test]
fn every_number_of_digits() {
    let values = [1, 12, 123, 1234, 12345, 123456, 1234567, 12345678];
    let mut script: Vec<Action> = (0..).zip(values).map(|(cell, n)| set(cell, n)).collect();
    script.extend([set(0, 123456789), set(1, 4294967295)]);
    let table = table(&[&script]);
    assert_eq!(
        laid(&table, &[0; 8]),
        "0  8 ready             1         12        123       1234      12345     123456    1234567   12345678\n"
    );
    assert_eq!(
        laid(&table, &[0; 10]),
        "0 10 finished  123456789 4294967295        123       1234      12345     123456    1234567   12345678\n"
    );
}

#[test]
fn the_last_position() {
    let table = table(&[&[set(7, 1_000_000_000); 32]]);
    assert_eq!(
        laid(&table, &[0; 31]),
        "0 31 ready             0          0          0          0          0          0          0 1000000000\n"
    );
    assert_eq!(
        laid(&table, &[0; 32]),
        "0 32 finished          0          0          0          0          0          0          0 1000000000\n"
    );
}

#[test]
fn an_actor_without_actions() {
    let wanted = "\
0  0 finished          0          0          0          0          0          0          0          0
";
    assert_eq!(laid(&table(&[&[]]), &[]), wanted);
}

#[test]
fn eight_actors() {
    let one: &[Action] = &[set(0, 7)];
    let table = table(&[one, one, &[], one, one, &[], one, one]);
    let wanted = "\
0  1 finished          7          0          0          0          0          0          0          0
1  0 ready             0          0          0          0          0          0          0          0
2  0 finished          0          0          0          0          0          0          0          0
3  0 ready             0          0          0          0          0          0          0          0
4  0 ready             0          0          0          0          0          0          0          0
5  0 finished          0          0          0          0          0          0          0          0
6  0 ready             0          0          0          0          0          0          0          0
7  1 finished          7          0          0          0          0          0          0          0
";
    assert_eq!(laid(&table, &[7, 0]), wanted);
    assert_eq!(wanted.len(), 816);
    assert_eq!(written(page, 900, &table, &[7, 0]), wanted.as_bytes());
}

/// The refusal of a call that is lent so much room, which stays as it was.
fn page_refused(table: &[u8], schedule: &[u8], room: usize) -> (u32, u32) {
    let mut buffer = vec![7; room];
    let answer = refused(page(table, schedule, &mut buffer));
    assert_eq!(refused(quick::page(table, schedule, &mut buffer)), answer);
    assert_eq!(buffer, vec![7; room]);
    answer
}

#[test]
fn room_then_table_then_schedule() {
    // The page of A would have 204 bytes.
    for room in [0, 204, 815] {
        assert_eq!(page_refused(&A, &[0, 1, 0, 1], room), (20, 0));
        assert_eq!(page_refused(&A[..43], &[1, 1], room), (20, 0));
        assert_eq!(page_refused(&A, &[1, 1], room), (20, 0));
    }
    assert_eq!(page_refused(&[], &[1, 1], 816), (1, 0));
    assert_eq!(page_refused(&A[..43], &[1, 1], 816), (5, 0));
    assert_eq!(page_refused(&A, &[2], 816), (11, 0));
    assert_eq!(page_refused(&A, &[0, 0, 0], 816), (12, 2));
    assert_eq!(page_refused(&A, &[1, 1], 816), (13, 1));
}
