//! The drawn schedule, called from Rust: table A's entries for some seeds, what is lent, and refusal 23.

use order_engine::{Ending, Reason, Refusal, SCHEDULE_MOST, draw, ready};
use tables::TABLE_A as A;

fn numbers(refusal: Refusal) -> (u32, u32) {
    (refusal.number(), refusal.position())
}

#[test]
fn a_seed_determines_the_schedule() {
    for (seed, schedule) in [
        (0, [0, 0, 1, 1]),
        (2, [1, 0, 0, 1]),
        (4, [0, 1, 0, 1]),
        (u32::MAX, [1, 0, 0, 1]),
    ] {
        for room in [SCHEDULE_MOST, 300] {
            let mut buffer = vec![0xa5; room];
            assert_eq!(draw(&A, seed, &mut buffer), Ok(&schedule[..]));
            assert!(buffer[4..].iter().all(|&entry| entry == 0xa5));
        }
        assert_eq!(ready(&A, &schedule).unwrap().ending, Ending::Finished);
    }
}

#[test]
fn room_before_the_table() {
    for room in [0, 4, SCHEDULE_MOST - 1] {
        let mut buffer = vec![0xa5; room];
        for table in [&A[..], &A[..43], &[]] {
            let refusal = draw(table, 0, &mut buffer).unwrap_err();
            assert_eq!(refusal.reason(), Reason::ScheduleRoom);
            assert_eq!(numbers(refusal), (23, 0));
        }
        assert_eq!(buffer, vec![0xa5; room]);
    }
    let mut buffer = [0xa5; SCHEDULE_MOST];
    assert_eq!(draw(&[], 0, &mut buffer).map_err(numbers), Err((1, 0)));
    assert_eq!(draw(&A[..43], 0, &mut buffer).map_err(numbers), Err((5, 0)));
    assert_eq!(buffer, [0xa5; SCHEDULE_MOST]);
}
