//! The draw against document 02, request W4. The upper halves of x, worked out apart, stand
//! beside the schedules that they give.

mod common;

use common::{A, refused, table};
use reference::{Ending, draw, quick, ready};
use tables::Action;
use tables::action::{add, lock, mutex_wait, receive, send, set, wait_any};

/// The schedule that both ways draw in so much room; entries after it stay as they were.
fn drawn_in(room: usize, table: &[u8], seed: u32) -> Vec<u8> {
    let schedules = [draw, quick::draw].map(|call| {
        let mut buffer = vec![0xa5; room];
        let length = call(table, seed, &mut buffer).unwrap();
        assert!(buffer[length..].iter().all(|&byte| byte == 0xa5));
        buffer.truncate(length);
        buffer
    });
    assert_eq!(schedules[0], schedules[1]);
    let [schedule, _] = schedules;
    schedule
}

/// The same in the least room.
fn drawn(table: &[u8], seed: u32) -> Vec<u8> {
    drawn_in(256, table, seed)
}

/// How a schedule ends.
fn ending(table: &[u8], schedule: &[u8]) -> Ending {
    ready(table, schedule).unwrap().ending
}

#[test]
fn table_a() {
    // 15470 and 18256 of two, then 53708 and 43769 of one.
    assert_eq!(drawn(&A, 0), [0, 0, 1, 1]);
    // 15521 of two, then actor 1 waits.
    assert_eq!(drawn(&A, 2), [1, 0, 0, 1]);
    // 15572 and 42033 of two.
    assert_eq!(drawn(&A, 4), [0, 1, 0, 1]);
    // 48238 and 51024 of two.
    assert_eq!(drawn(&A, 1 << 31), [0, 0, 1, 1]);
    // 15445 of two.
    assert_eq!(drawn(&A, u32::MAX), [1, 0, 0, 1]);
    assert_eq!(ending(&A, &drawn(&A, 0)), Ending::Finished);
}

#[test]
fn ranks_among_eight_and_fewer() {
    let one: &[Action] = &[set(0, 7)];
    let table = table(&[one; 8]);
    // 15470 of eight, 18256 of seven, then 53708, 43769, 25170, 40750, 22526, 41945: ranks 6 0 2 4 2 1 0 0.
    assert_eq!(drawn(&table, 0), [6, 0, 3, 7, 4, 2, 1, 5]);
    // 15445, 12311, 8835, 41343, 47029, 57284, 59813, 47440: ranks 5 5 3 3 1 2 1 0.
    assert_eq!(drawn(&table, u32::MAX), [5, 6, 3, 4, 1, 7, 2, 0]);
}

#[test]
fn a_draw_where_one_alone_is_ready() {
    let wanting = [receive(0, 0), wait_any(1, &[0]), set(2, 1)];
    let giving = [send(0, 0), set(1, 1), set(1, 2)];
    let table = table(&[&wanting, &giving]);
    // 15572 of two; 42033 of actor 1 alone; 36593, 53472 and 3273 of two.
    assert_eq!(drawn(&table, 4), [0, 1, 1, 0, 1, 0]);
    // 15470; 18256 of actor 1 alone; 53708, 43769, 25170 of two.
    assert_eq!(drawn(&table, 0), [0, 1, 0, 1, 0, 1]);
}

#[test]
fn who_does_not_take_part() {
    let one: &[Action] = &[set(0, 7)];
    let table = table(&[&[], one, &[], one]);
    // 15470 and 15521 of two.
    assert_eq!(drawn(&table, 0), [1, 3]);
    assert_eq!(drawn(&table, 2), [3, 1]);
}

#[test]
fn nobody_ready_at_the_start() {
    assert_eq!(drawn(&table(&[&[]]), 0), [0; 0]);
    let waits = table(&[&[mutex_wait(0, &[0])]]);
    assert_eq!(drawn(&waits, 7), [0; 0]);
    assert_eq!(ending(&waits, &[]), Ending::Stuck);
}

#[test]
fn stuck_for_each_reason() {
    let mail = table(&[&[receive(0, 0), wait_any(1, &[0])], &[set(0, 1)]]);
    let first = [lock(0), lock(1), mutex_wait(0, &[1])];
    let second = [lock(1), lock(0), mutex_wait(0, &[0])];
    let mutexes = table(&[&first, &second]);
    let totals = table(&[&[set(0, 1 << 31), add(0, 0)], &[set(0, 1), set(0, 2)]]);
    for (table, seed, schedule) in [
        (&mail, 0, &[0, 1][..]),
        (&mutexes, 2, &[1, 0, 1, 0]),
        (&totals, 0, &[0, 1, 1]),
    ] {
        assert_eq!(drawn(table, seed), schedule);
        assert_eq!(ending(table, schedule), Ending::Stuck);
    }
}

#[test]
fn the_longest() {
    let script: &[Action] = &[set(7, 1); 32];
    let table = table(&[script; 8]);
    let schedule = drawn(&table, 1);
    assert_eq!(schedule.len(), 256);
    assert_eq!(ending(&table, &schedule), Ending::Finished);
    for room in [257, 300] {
        assert_eq!(drawn_in(room, &table, 1), schedule);
    }
}

/// The refusal of a call that is lent so much room, which stays as it was.
fn draw_refused(table: &[u8], room: usize) -> (u32, u32) {
    let mut buffer = vec![7; room];
    let answer = refused(draw(table, 1, &mut buffer));
    assert_eq!(refused(quick::draw(table, 1, &mut buffer)), answer);
    assert_eq!(buffer, vec![7; room]);
    answer
}

#[test]
fn room_then_table() {
    // The schedule of A would have 4 entries.
    for room in [0, 4, 255] {
        assert_eq!(draw_refused(&A, room), (23, 0));
        assert_eq!(draw_refused(&A[..43], room), (23, 0));
        assert_eq!(draw_refused(&[], room), (23, 0));
    }
    for room in [256, 257] {
        assert_eq!(draw_refused(&[], room), (1, 0));
        assert_eq!(draw_refused(&A[..43], room), (5, 0));
        let mut unknown = A;
        unknown[12] = 255;
        assert_eq!(draw_refused(&unknown, room), (6, 12));
    }
}
