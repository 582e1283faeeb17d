//! Where the remainder lies: it is the caller's own bytes, also where it is empty, and where the recordings
//! overlap.

use super::{ours, theirs};
use crate::harness::asked::Asked;
use crate::harness::demands::Demands;
use crate::harness::tally::Tally;
use reference::Schedule;
use std::ptr;

/// Two recordings in memory: in words how they lie, and the two.
type Pair<'a> = (&'static str, [&'a [u8]; 2]);

/// The words of all pairs but the first.
const OVERLAPPING: [&str; 5] = [
    "one slice twice",
    "the second an end of the first",
    "the second a beginning of the first",
    "the first an end of the second",
    "overlapping, equal lengths",
];

/// The two recordings as they are lent, and pairs of parts of the first that overlap.
fn pairs<'a>(first: &'a [u8], second: &'a [u8]) -> [Pair<'a>; 6] {
    let length = first.len();
    let third = length / 3;
    let (begin, end) = (&first[..length - third], &first[third..]);
    let [twice, ends, begins, of_end, equal] = OVERLAPPING;
    [
        ("as lent", [first, second]),
        (twice, [first, first]),
        (ends, [first, end]),
        (begins, [first, begin]),
        (of_end, [end, first]),
        (equal, [end, begin]),
    ]
}

/// What is wrong with the numbers or the place of a remainder in the memory that the engine was lent.
pub fn mistake(asked: &Asked) -> Option<String> {
    let [first, second, _] = asked.ours.read;
    let pairs = pairs(first, second).into_iter();
    let mut wrong = pairs.filter_map(|(words, [one, other])| {
        let mistake = misplaced(one, other)?;
        Some(format!("{mistake}: {words}"))
    });
    wrong.next()
}

fn misplaced(first: &[u8], second: &[u8]) -> Option<&'static str> {
    if ours(first, second) != theirs(first, second) {
        return Some("the answers differ");
    }
    let (ours, theirs) = (
        order_engine::remainder(first, second),
        reference::remainder(first, second),
    );
    let whole = match theirs.recording {
        Schedule::First => first,
        Schedule::Second => second,
    };
    let begin = whole.as_ptr().wrapping_add(theirs.from);
    if ours.as_ptr() != begin || !ptr::eq(ours, theirs.entries) {
        return Some("the remainder lies elsewhere");
    }
    None
}

/// What must have been met, and how often.
pub fn demands(demands: Demands) -> Demands {
    demands.notes(&OVERLAPPING, 100_000)
}

/// Notes the overlapping pairs, where they are not empty.
pub fn note(tally: &mut Tally, asked: &Asked) {
    if asked.input.read[0].len() >= 3 {
        OVERLAPPING.iter().for_each(|words| tally.note(words));
    }
}
