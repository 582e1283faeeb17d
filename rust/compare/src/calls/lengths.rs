//! The lengths of two recordings, for the calls that take them: what must have been met.

use crate::harness::demands::Demands;
use crate::harness::tally::Tally;
use std::cmp::Ordering;

/// Which of two recordings is the longer, in words.
pub const LONGER: [&str; 3] = ["the first longer", "the second longer", "equal lengths"];

/// A pair of lengths at which something turns: in words, and whether two lengths are such.
type Corner = (&'static str, fn(usize, usize) -> bool);

const CORNERS: [Corner; 14] = [
    ("the first empty, alone", |one, other| one == 0 && other > 0),
    ("the second empty, alone", |one, other| {
        other == 0 && one > 0
    }),
    ("both empty", |one, other| one == 0 && other == 0),
    ("the first longer by one", |one, other| one == other + 1),
    ("the second longer by one", |one, other| other == one + 1),
    ("256 entries against 0", |one, other| {
        (one, other) == (256, 0)
    }),
    ("0 entries against 256", |one, other| {
        (one, other) == (0, 256)
    }),
    ("256 entries against 256", |one, other| {
        (one, other) == (256, 256)
    }),
    ("over 256 entries against at most 256", |one, other| {
        one > 256 && other <= 256
    }),
    ("at most 256 entries against over 256", |one, other| {
        one <= 256 && other > 256
    }),
    ("over 256 entries against over 256", |one, other| {
        one > 256 && other > 256
    }),
    ("over 65,535 entries in the first", |one, _| one > 65_535),
    ("over 65,535 entries in the second", |_, other| {
        other > 65_535
    }),
    ("over 256 entries, equal lengths", |one, other| {
        one > 256 && one == other
    }),
];

/// The one of [`LONGER`] that two recordings are.
pub fn longer(first: &[u8], second: &[u8]) -> &'static str {
    let [greater, less, equal] = LONGER;
    match first.len().cmp(&second.len()) {
        Ordering::Greater => greater,
        Ordering::Less => less,
        Ordering::Equal => equal,
    }
}

/// What must have been met, and how often.
pub fn demands(demands: Demands, least: u64) -> Demands {
    demands
        .notes(&LONGER, least)
        .notes(&CORNERS.map(|(words, _)| words), least)
}

/// Notes what two lengths are.
pub fn note(tally: &mut Tally, first: &[u8], second: &[u8]) {
    tally.note(longer(first, second));
    for (words, fits) in CORNERS {
        if fits(first.len(), second.len()) {
            tally.note(words);
        }
    }
}
