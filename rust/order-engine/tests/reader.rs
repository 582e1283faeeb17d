//! The proved reader, called from Rust: document 01's table A, cases (i) and (j), and the words of
//! a refusal.

use order_engine::{Refusal, check};
use tables::TABLE_A as A;

/// The refusal of A with one byte replaced.
fn refusal(at: usize, byte: u8) -> Refusal {
    let mut table = A;
    table[at] = byte;
    check(&table).unwrap_err()
}

fn numbers(refusal: Refusal) -> (u32, u32) {
    (refusal.number(), refusal.position())
}

#[test]
fn table_a_is_accepted() {
    assert_eq!(check(&A), Ok(()));
}

#[test]
fn the_empty_table() {
    assert_eq!(numbers(check(&[]).unwrap_err()), (1, 0));
}

#[test]
fn case_i() {
    assert_eq!(numbers(check(&A[..43]).unwrap_err()), (5, 0));
    assert_eq!(numbers(refusal(12, 255)), (6, 12));
    assert_eq!(numbers(refusal(12, 12)), (6, 12));
}

#[test]
fn case_j() {
    assert_eq!(numbers(refusal(39, 0)), (7, 36));
    assert_eq!(numbers(refusal(40, 1)), (8, 36));
}

#[test]
fn a_refusal_in_words() {
    assert_eq!(
        refusal(12, 255).to_string(),
        "refused 6 at 12: the action has an unknown kind"
    );
    let error: Box<dyn std::error::Error> = refusal(0, 0).into();
    assert_eq!(
        error.to_string(),
        "refused 2 at 0: the table's edition is not 1"
    );
}
