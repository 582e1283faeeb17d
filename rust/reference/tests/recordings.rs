//! Two recordings against document 02, request W3: the longer is held to the length of the shorter, and
//! the remainder is a part of the caller's own bytes.

mod common;

use common::{A, different_after, refused, same_after, table};
use reference::{Refusal, Same, Schedule, prefix, quick, remainder, same};
use std::ptr;
use tables::action::{add, send, set};

/// The answer on table A, by both ways.
fn verdict(first: &[u8], second: &[u8]) -> Result<Same, Refusal> {
    of(&A, first, second)
}

fn of(table: &[u8], first: &[u8], second: &[u8]) -> Result<Same, Refusal> {
    let answer = prefix(table, first, second);
    assert_eq!(quick::prefix(table, first, second), answer);
    answer
}

#[test]
fn the_first_entries_are_kept() {
    let (whole, begun) = ([0, 0, 1, 1], [1, 0, 0]);
    assert_eq!(verdict(&whole, &begun), same_after(3));
    assert_eq!(verdict(&begun, &whole), same_after(3));
    assert_eq!(same(&A, &whole, &begun), different_after(0));
    // The last three of the whole would be refused.
    assert_eq!(refused(same(&A, &whole[1..], &begun)), (13, 2));
    assert_eq!(verdict(&whole, &[1, 0]), different_after(0));
    assert_eq!(verdict(&[1, 0], &whole), different_after(0));
}

#[test]
fn pairs_of_the_first_entries() {
    let sends = table(&[&[send(0, 0), send(0, 0)], &[send(0, 0)]]);
    let whole = [0, 0, 1];
    assert_eq!(of(&sends, &whole, &[0, 1]), different_after(0));
    assert_eq!(of(&sends, &whole, &[0, 0]), same_after(1));
    assert_eq!(of(&sends, &whole, &[0, 1, 0, 9]), different_after(3));
    assert_eq!(of(&sends, &whole, &[1, 0, 0, 9]), different_after(2));
    assert_eq!(of(&sends, &[1, 0, 0, 9], &whole), different_after(1));
    assert_eq!(of(&sends, &whole, &whole), same_after(3));
}

#[test]
fn with_equal_lengths_the_same_verdict() {
    for second in [[1, 0, 0, 1], [0, 0, 1, 1], [0, 1, 0, 1], [0, 0, 0, 1]] {
        let first = [0, 0, 1, 1];
        assert_eq!(verdict(&first, &second), same(&A, &first, &second));
    }
}

#[test]
fn an_empty_recording() {
    assert_eq!(verdict(&[], &[]), same_after(0));
    assert_eq!(verdict(&[], &[255; 300]), same_after(0));
    assert_eq!(verdict(&[255; 300], &[]), same_after(0));
    assert_eq!(refused(of(&A[..43], &[], &[0])), (5, 0));
}

#[test]
fn a_bad_entry_before_the_cut_and_after_it() {
    // An Add that runs over is actor 0's second action; actor 1 has two Sets.
    let totals = table(&[&[set(0, 1 << 31), add(0, 0)], &[set(0, 1), set(0, 2)], &[]]);
    for (table, bad, good, [first, second]) in [
        (&A[..], &[0, 7], &[0, 0], [11, 14]),
        (&totals, &[0, 2], &[0, 1], [12, 15]),
        (&A, &[1, 1], &[1, 0], [13, 16]),
        (&totals, &[0, 0], &[0, 1], [21, 22]),
    ] {
        let longer = [&good[..], &[9]].concat();
        assert_eq!(refused(of(table, bad, good)), (first, 1));
        assert_eq!(refused(of(table, good, bad)), (second, 1));
        assert_eq!(refused(of(table, bad, &longer)), (first, 1));
        assert_eq!(refused(of(table, &longer, bad)), (second, 1));
        assert_eq!(of(table, bad, &good[..1]), same_after(0));
        assert_eq!(of(table, &good[..1], bad), same_after(0));
        assert_eq!(refused(same(table, bad, &good[..1])), (first, 1));
        assert_eq!(refused(same(table, &good[..1], bad)), (second, 1));
    }
}

#[test]
fn the_second_part_is_refused_before_the_firsts_remainder() {
    let (first, second) = ([0, 7], [7]);
    assert_eq!(refused(verdict(&first, &second)), (14, 0));
    assert_eq!(refused(same(&A, &first, &second)), (11, 1));
}

#[test]
fn the_remainder_of_the_longer() {
    let (one, other) = ([0, 0, 1, 1, 7], [1, 0]);
    for (first, second, recording) in [
        (&one[..], &other[..], Schedule::First),
        (&other[..], &one[..], Schedule::Second),
    ] {
        let left = remainder(first, second);
        assert_eq!((left.recording, left.from), (recording, 2));
        assert!(ptr::eq(left.entries, &one[2..]));
    }
    let left = remainder(&[], &one);
    assert_eq!((left.recording, left.from), (Schedule::Second, 0));
    assert!(ptr::eq(left.entries, &one[..]));
}

#[test]
fn with_equal_lengths_the_end_of_the_first() {
    let all = [0, 0, 1, 1, 7];
    for (first, second) in [(0..3, 2..5), (2..5, 0..3), (1..4, 1..4), (2..2, 4..4)] {
        let (from, end) = (first.len(), first.end);
        let left = remainder(&all[first], &all[second]);
        assert_eq!((left.recording, left.from), (Schedule::First, from));
        assert!(ptr::eq(left.entries, &all[end..end]));
    }
}
