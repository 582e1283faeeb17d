//! Two recordings, called from Rust: the verdict on what both have, and the remainder's place.

use order_engine::SameVerdict::{Different, Same};
use order_engine::remainder::Remainder;
use order_engine::{Recording, Refusal, SameVerdict, prefix, remainder, same};
use std::mem::{offset_of, size_of};
use std::ptr::{self, without_provenance};
use tables::TABLE_A as A;

/// The verdict and how many pairs were compared, or the refusal's number and position.
fn verdict(first: &[u8], second: &[u8]) -> Result<(SameVerdict, u32), (u32, u32)> {
    let numbers = |refusal: Refusal| (refusal.number(), refusal.position());
    let answer = prefix(&A, first, second).map_err(numbers)?;
    Ok((answer.verdict, answer.pairs))
}

#[test]
fn as_far_as_both_go() {
    assert_eq!(verdict(&[0, 0, 1, 1], &[1, 0, 0]), Ok((Same, 3)));
    assert_eq!(verdict(&[1, 0, 0], &[0, 0, 1, 1]), Ok((Same, 3)));
    assert_eq!(verdict(&[0, 0, 1, 1], &[1, 0, 0, 1]), Ok((Same, 6)));
    assert_eq!(verdict(&[0, 0, 1, 1], &[1, 0]), Ok((Different, 0)));
    assert_eq!(verdict(&[], &[0, 0]), Ok((Same, 0)));
    assert_eq!(same(&A, &[], &[0, 0]).unwrap().verdict, Different);
}

#[test]
fn entries_of_the_remainder_are_not_stepped() {
    let (whole, bad) = ([0, 0, 1, 1], [1, 0, 0, 255]);
    assert_eq!(verdict(&bad, &whole), Err((11, 3)));
    assert_eq!(verdict(&whole, &bad), Err((14, 3)));
    assert_eq!(verdict(&bad, &whole[..3]), Ok((Same, 3)));
    assert_eq!(verdict(&whole[..3], &bad), Ok((Same, 3)));
    // The first part is stepped whole before the second.
    assert_eq!(verdict(&[1, 1, 255], &[2, 0]), Err((13, 1)));
    assert_eq!(verdict(&[1, 0, 255], &[2, 0]), Err((14, 0)));
}

#[test]
fn a_part_of_the_callers_own_bytes() {
    let (one, other) = ([0, 0, 1, 1, 2], [1, 0, 0]);
    assert!(ptr::eq(remainder(&one, &other), &one[3..]));
    assert!(ptr::eq(remainder(&other, &one), &one[3..]));
    assert!(ptr::eq(remainder(&one, &[]), &one[..]));
    assert_eq!(remainder::fields(&one, &other).which(), Recording::First);
    assert_eq!(remainder::fields(&other, &one).which(), Recording::Second);
}

#[test]
fn with_equal_lengths_the_end_of_the_first() {
    let all = [0, 0, 1, 1, 2];
    for (first, second) in [(0..3, 2..5), (2..5, 0..3), (1..4, 1..4), (2..2, 4..4)] {
        let (from, end) = (first.len(), first.end);
        let (first, second) = (&all[first], &all[second]);
        assert!(ptr::eq(remainder(first, second), &all[end..end]));
        let wanted = Remainder {
            recording: 1,
            from,
            length: 0,
        };
        assert_eq!(remainder::fields(first, second), wanted);
    }
}

unsafe extern "C" {
    fn order_remainder(
        first: *const u8,
        first_length: usize,
        second: *const u8,
        second_length: usize,
    ) -> Remainder;
}

/// The C struct's numbers for two recordings of these lengths, which lie where nothing can be read.
fn unread(first: usize, second: usize) -> (u32, usize, usize) {
    let nowhere = without_provenance(1);
    // SAFETY: the call looks at the lengths alone; a read would end the program.
    let answer = unsafe { order_remainder(nowhere, first, nowhere, second) };
    (answer.recording, answer.from, answer.length)
}

#[test]
fn no_byte_is_read() {
    assert_eq!(unread(7, 5), (1, 5, 2));
    assert_eq!(unread(5, 7), (2, 5, 2));
    assert_eq!(unread(5, 5), (1, 5, 0));
}

#[test]
fn numbers_past_32_bits() {
    const FULL: usize = u32::MAX as usize;
    const MOST: usize = isize::MAX as usize;
    assert_eq!(unread(FULL, 0), (1, 0, FULL));
    assert_eq!(unread(FULL + 1, 0), (1, 0, FULL + 1));
    assert_eq!(unread(3, FULL + 4), (2, 3, FULL + 1));
    assert_eq!(unread(FULL + 2, FULL), (1, FULL, 2));
    assert_eq!(unread(FULL + 1, FULL + 2), (2, FULL + 1, 1));
    assert_eq!(unread(2 * FULL, 2 * FULL), (1, 2 * FULL, 0));
    assert_eq!(unread(MOST, FULL + 1), (1, FULL + 1, MOST - FULL - 1));
    assert_eq!(unread(1, MOST), (2, 1, MOST - 1));
}

#[test]
fn the_struct_of_c() {
    assert_eq!(offset_of!(Remainder, recording), 0);
    assert_eq!(offset_of!(Remainder, from), 8);
    assert_eq!(offset_of!(Remainder, length), 16);
    assert_eq!(size_of::<Remainder>(), 24);
}
