//! The proved verdicts, called from Rust: document 01's cases (g) and (h), and the refusals.

use order_engine::PairVerdict::{Dependent, Independent};
use order_engine::SameVerdict::{Different, Same};
use order_engine::{Refusal, SameVerdict, StepName, pair, prefix, route, route_room, same};
use tables::action::{send, set};
use tables::{Layout, TABLE_A as A};

fn numbers<T: std::fmt::Debug>(answer: Result<T, Refusal>) -> (u32, u32) {
    let refusal = answer.unwrap_err();
    (refusal.number(), refusal.position())
}

const fn step(actor: u8, action: u8) -> StepName {
    StepName::new(actor, action)
}

/// The verdict, and how many pairs were compared.
fn verdict(first: &[u8], second: &[u8]) -> (SameVerdict, u32) {
    let answer = same(&A, first, second).unwrap();
    (answer.verdict, answer.pairs)
}

#[test]
fn case_g() {
    assert_eq!(pair(&A, step(0, 1), step(1, 0)), Ok(Independent));
    assert_eq!(pair(&A, step(0, 1), step(1, 1)), Ok(Dependent));
    assert_eq!(numbers(pair(&A, step(0, 2), step(1, 1))), (17, 0));
}

#[test]
fn case_h() {
    let (first, second) = ([0, 0, 1, 1], [1, 0, 0, 1]);
    assert_eq!(verdict(&first, &second), (Same, 6));
    assert!(same(&A, &first, &second).unwrap().is_same());
    assert_eq!(verdict(&first, &[0, 0, 1]), (Different, 0));
    assert_eq!(verdict(&first[..2], &second[..2]), (Different, 0));
    assert_eq!(verdict(&[], &[]), (Same, 0));
    let mut positions = [9; route_room(4)];
    let length = route(&A, &first, &second, &mut positions).unwrap().len();
    let mut schedule = first;
    for &k in &positions[..length] {
        schedule.swap(usize::from(k), usize::from(k) + 1);
    }
    assert_eq!(schedule, second);
    assert!(positions[length..].iter().all(|&entry| entry == 9));
}

#[test]
fn the_pair_that_ends_the_search() {
    // Actors 0 and 3 send to mailbox 0, actors 1 and 2 to mailbox 1, after a Set each.
    let scripts = [0, 1, 1, 0].map(|mailbox| [set(0, 1), send(mailbox, 0)]);
    let table = Layout::new(2, 0, &scripts.each_ref().map(|script| &script[..])).bytes();
    let first = [0, 0, 1, 1, 2, 2, 3, 3];
    for (second, pairs, entries, names) in [
        (
            [3, 3, 2, 2, 1, 1, 0, 0],
            14,
            (3, 5),
            [step(1, 1), step(2, 1)],
        ),
        (
            [3, 3, 0, 0, 1, 1, 2, 2],
            23,
            (1, 7),
            [step(0, 1), step(3, 1)],
        ),
    ] {
        for answer in [same, prefix] {
            let answer = answer(&table, &first, &second).unwrap();
            assert_eq!((answer.verdict, answer.pairs), (Different, pairs));
            assert_eq!(answer.entries(), Some(entries));
            assert_eq!(answer.opposed, Some(names));
        }
    }
    let answer = same(&table, &first, &[0, 1, 2, 3, 0, 1, 2, 3]).unwrap();
    assert_eq!((answer.verdict, answer.pairs), (Same, 28));
    assert_eq!((answer.entries(), answer.opposed), (None, None));
}

#[test]
fn refusals() {
    assert_eq!(numbers(same(&A, &[1, 1], &[2])), (13, 1));
    assert_eq!(numbers(same(&A, &[], &[0, 2])), (14, 1));
    assert_eq!(numbers(route(&A, &[0], &[], &mut [])), (19, 0));
    assert_eq!(numbers(route(&A, &[0, 1], &[1, 0], &mut [])), (18, 0));
    assert_eq!(route(&A, &[0], &[0], &mut []), Ok(&[][..]));
}
